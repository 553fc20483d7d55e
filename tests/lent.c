/*
 * lent.c: the lent buffers of lent.h.
 */
#include "lent.h"

#include "chance.h"
#include "duhzarek.h"

#include <stdio.h>
#include <stdlib.h>
#include <string.h>

enum {
    GUARD = 64,
    PLACES = 8,
    SPARE = 256,                     /* entries beyond what the largest call needs */
    MOST_COMPONENTS = MAX_PIXELS / 2 /* of the largest crop: by 4, every second pixel */
};

struct lent {
    const char *name;
    size_t entry;    /* bytes an entry has */
    size_t capacity; /* entries that can be lent */
    size_t len;      /* entries that are lent */
    uint8_t *block;  /* the library's side and its guards, with some room to move */
    uint8_t *side[SIDES];
    uint64_t guard;
};

static struct lent lent[BUFFERS] = {
    [IMAGE] = {.name = "image", .entry = 1, .capacity = MAX_PIXELS + SPARE},
    [MASK] = {.name = "mask", .entry = 1, .capacity = MAX_PIXELS + SPARE},
    [COMPONENTS] = {.name = "components", .entry = 2, .capacity = MAX_PIXELS + SPARE},
    [HOLES] = {.name = "holes", .entry = 2, .capacity = MAX_PIXELS + SPARE},
    [BYTES] = {.name = "bytes", .entry = 1, .capacity = MAX_PIXELS + SPARE},
    [STEPS] = {.name = "steps", .entry = 1, .capacity = DUHZAREK_MAX_JOB + SPARE},
    [JOB] = {.name = "job", .entry = 1, .capacity = DUHZAREK_MAX_JOB + SPARE},
    [LISTING] = {.name = "listing", .entry = 1, .capacity = DUHZAREK_MAX_LISTING},
    [QUEUE] = {.name = "queue", .entry = 2, .capacity = MAX_PIXELS + SPARE},
    [WORDS] = {.name = "words", .entry = 8, .capacity = MAX_WORDS + SPARE},
    [RECORDS] = {.name = "records", .entry = 4, .capacity = RECORD * MOST_COMPONENTS + SPARE},
    [COUNTS] = {.name = "counts", .entry = 4, .capacity = 4},
    [REPORTS] = {.name = "reports", .entry = 4, .capacity = 3 * MAX_STEPS},
    [SCANNED_LEN] = {.name = "contour_len", .entry = 4, .capacity = 1},
    [BLANK_ROWS] = {.name = "blank_rows", .entry = 4, .capacity = 1},
};

static uint8_t *allocate(size_t size)
{
    uint8_t *bytes = calloc(size, 1);
    if (bytes == NULL) {
        fprintf(stderr, "no memory for a buffer of %zu bytes\n", size);
        exit(2);
    }
    return bytes;
}

void allocate_buffers(void)
{
    for (enum buffer b = 0; b < BUFFERS; b++) {
        size_t size = lent[b].capacity * lent[b].entry;
        lent[b].block = allocate(GUARD + PLACES * lent[b].entry + size + GUARD);
        lent[b].side[PLAIN] = allocate(size);
        lent[b].side[BEFORE] = allocate(size);
        lend(b, 0);
    }
}

static size_t size_of(enum buffer buffer)
{
    return lent[buffer].len * lent[buffer].entry;
}

static uint8_t guard_byte(enum buffer buffer, size_t k)
{
    return (uint8_t)((lent[buffer].guard >> (8 * (k % 8))) + k);
}

void lend(enum buffer buffer, size_t len)
{
    struct lent *one = &lent[buffer];
    if (len > one->capacity) {
        fprintf(stderr, "%s: %zu entries wanted, there are %zu\n", one->name, len, one->capacity);
        exit(2);
    }
    one->len = len;
    one->guard = draw();
    uint8_t *front_guard = one->block + below(PLACES) * one->entry;
    one->side[LIBRARY] = front_guard + GUARD;
    for (size_t k = 0; k < GUARD; k++) {
        front_guard[k] = guard_byte(buffer, k);
        one->side[LIBRARY][size_of(buffer) + k] = guard_byte(buffer, k);
    }
    draw_bytes(one->side[PLAIN], size_of(buffer));
    hand_over(buffer);
}

size_t lent_len(enum buffer buffer)
{
    return lent[buffer].len;
}

const char *name_of(enum buffer buffer)
{
    return lent[buffer].name;
}

static void *side_of(enum buffer buffer, enum side side)
{
    return lent[buffer].side[side];
}

uint8_t *plain_bytes(enum buffer buffer)
{
    return side_of(buffer, PLAIN);
}

uint16_t *plain_queue(void)
{
    return side_of(QUEUE, PLAIN);
}

uint64_t *plain_words(void)
{
    return side_of(WORDS, PLAIN);
}

uint32_t *plain_numbers(enum buffer buffer)
{
    return side_of(buffer, PLAIN);
}

void hand_over(enum buffer buffer)
{
    memcpy(lent[buffer].side[LIBRARY], lent[buffer].side[PLAIN], size_of(buffer));
}

void lend_all(struct call *call, enum side side)
{
    call->image = side_of(IMAGE, side);
    call->image_len = lent_len(IMAGE);
    call->mask = side_of(MASK, side);
    call->mask_len = lent_len(MASK);
    call->components = side_of(COMPONENTS, side);
    call->components_len = lent_len(COMPONENTS);
    call->holes = side_of(HOLES, side);
    call->holes_len = lent_len(HOLES);
    call->bytes = side_of(BYTES, side);
    call->bytes_len = lent_len(BYTES);
    call->steps = side_of(STEPS, side);
    call->steps_len = lent_len(STEPS);
    call->job = side_of(JOB, side);
    call->job_len = lent_len(JOB);
    call->queue = side_of(QUEUE, side);
    call->queue_len = lent_len(QUEUE);
    call->words = side_of(WORDS, side);
    call->words_len = lent_len(WORDS);
    call->records = side_of(RECORDS, side);
    call->records_len = lent_len(RECORDS);
    call->counts = side_of(COUNTS, side);
    call->reports = side_of(REPORTS, side);
    call->scanned_len = side_of(SCANNED_LEN, side);
    call->blank_rows = side_of(BLANK_ROWS, side);
    call->listing = side_of(LISTING, side);
}

void keep_before(void)
{
    for (enum buffer b = 0; b < BUFFERS; b++)
        memcpy(lent[b].side[BEFORE], lent[b].side[LIBRARY], size_of(b));
}

void put_back(enum buffer buffer)
{
    memcpy(lent[buffer].side[PLAIN], lent[buffer].side[BEFORE], size_of(buffer));
    hand_over(buffer);
}

bool guards_intact(enum buffer buffer)
{
    const uint8_t *entries = lent[buffer].side[LIBRARY];
    for (size_t k = 0; k < GUARD; k++) {
        uint8_t expected = guard_byte(buffer, k);
        if ((entries - GUARD)[k] != expected || entries[size_of(buffer) + k] != expected)
            return false;
    }
    return true;
}

size_t first_difference(enum buffer buffer, size_t from, enum side one, enum side other)
{
    const struct lent *l = &lent[buffer];
    const uint8_t *left = l->side[one];
    const uint8_t *right = l->side[other];
    size_t at = from * l->entry;
    if (memcmp(left + at, right + at, size_of(buffer) - at) == 0)
        return l->len;
    while (left[at] == right[at])
        at++;
    return at / l->entry;
}

uint64_t entry_at(enum buffer buffer, enum side side, size_t k)
{
    const void *entries = side_of(buffer, side);
    switch (lent[buffer].entry) {
    case 1:
        return ((const uint8_t *)entries)[k];
    case 2:
        return ((const uint16_t *)entries)[k];
    case 4:
        return ((const uint32_t *)entries)[k];
    default:
        return ((const uint64_t *)entries)[k];
    }
}

void put_entry(enum buffer buffer, enum side side, size_t k, uint64_t value)
{
    void *entries = side_of(buffer, side);
    switch (lent[buffer].entry) {
    case 1:
        ((uint8_t *)entries)[k] = (uint8_t)value;
        break;
    case 2:
        ((uint16_t *)entries)[k] = (uint16_t)value;
        break;
    case 4:
        ((uint32_t *)entries)[k] = (uint32_t)value;
        break;
    default:
        ((uint64_t *)entries)[k] = value;
        break;
    }
}
