/*
 * lent.h: the buffers of a call, each lent twice: to the library, between guard bytes, and to the reference.
 *
 * A random test writes what is to be lent on the reference's side and hands it over to the library's. A test
 * without the reference writes the library's side.
 */
#ifndef LENT_H
#define LENT_H

#include "reference.h"

#include <stdbool.h>

enum buffer {
    IMAGE,
    MASK,
    COMPONENTS,
    HOLES,
    BYTES,
    STEPS,
    JOB,
    LISTING,
    QUEUE,
    WORDS,
    RECORDS,
    COUNTS,
    REPORTS,
    SCANNED_LEN, /* of a scan */
    BLANK_ROWS,
    BUFFERS
};

/* BEFORE is the library's side as the call began. */
enum side { LIBRARY, PLAIN, BEFORE, SIDES };

void allocate_buffers(void);

/* Lends that many entries, full of junk, at a place and between guards that differ from time to time. */
void lend(enum buffer buffer, size_t len);

size_t lent_len(enum buffer buffer);

const char *name_of(enum buffer buffer);

/* The reference's side, to be written and then handed over. */
uint8_t *plain_bytes(enum buffer buffer);
uint16_t *plain_queue(void);
uint64_t *plain_words(void);
uint32_t *plain_numbers(enum buffer buffer);

void hand_over(enum buffer buffer);

/* Lends a side of every buffer to the call. */
void lend_all(struct call *call, enum side side);

void keep_before(void);

bool guards_intact(enum buffer buffer);

/* Puts both sides back as the library's was when the last call began. */
void put_back(enum buffer buffer);

/* The first entry from `from` on that differs, or the length. */
size_t first_difference(enum buffer buffer, size_t from, enum side one, enum side other);

uint64_t entry_at(enum buffer buffer, enum side side, size_t k);

/* Writes an entry; the value has no more bytes than an entry of the buffer. */
void put_entry(enum buffer buffer, enum side side, size_t k, uint64_t value);

#endif
