/*
 * answers.h: writes what came back from a call, in the scope document's words, and how the buffers on the
 * library's side of lent.h are left. `part` is a component there, `workspace` the queue of a labelling,
 * `byte map` the map that is carried over into one of 16 bits. Words of packed rows are hexadecimal.
 */
#ifndef ANSWERS_H
#define ANSWERS_H

#include "reference.h"

/* An operation that was done, or was refused. */
void print_operation(const struct call *call);
void print_refused_operation(const struct call *call, size_t refusal);

/* A scan likewise, with the rows that it tells to be blank. */
void print_scan(const struct call *call);
void print_refused_scan(const struct call *call, size_t refusal);

/* The first entries of the queue, in its order. */
void print_stretch(size_t len);

/* A labelling that was done, or was refused. */
void print_labelling(const struct call *call);
void print_refused_labelling(size_t refusal);

/* The first bytes of the listing, its lines moved in like all answers. */
void print_listing(size_t len);

/* A map that was carried over, or was refused. */
void print_widening(const struct call *call);
void print_refused_widening(size_t refusal);

/* An operation on packed rows that was done, or was refused. */
void print_operation_on_words(const struct call *call);
void print_refused_operation_on_words(const struct call *call, size_t refusal);

/* An image that was packed, rows that were unpacked, or either refused. */
void print_packing(const struct call *call);
void print_unpacking(const struct call *call);
void print_refused_packing(size_t refusal);

#endif
