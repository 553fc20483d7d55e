/*
 * reference.h: a simple whole-image program that does every call of duhzarek.h. The tests hold the library
 * against it.
 *
 * It is the scope document's "plain book", with points 1, 2, 3, 4 and 6 of the change requests: whole images, one
 * iteration after another, links by floods over the whole image. It shares nothing with the library, its
 * header included, and prefers simplicity to speed.
 */
#ifndef REFERENCE_H
#define REFERENCE_H

#include <stddef.h>
#include <stdint.h>

enum {
    MAX_SIDE = 256,
    MAX_PIXELS = MAX_SIDE * MAX_SIDE,
    MAX_WORDS = MAX_PIXELS / 64,
    MAX_LABEL = 65535, /* more than the components or the holes of any crop */
    RECORD = 10,
    MAX_STEPS = 32,
    JOB_HEAD = 8,
    LANE_PIXELS = 8192,
    LANE_RECORDS = 1024
};

/* The sides of a crop; a sum of them names those that count as object. */
enum { TOP_SIDE = 1, RIGHT_SIDE = 2, BOTTOM_SIDE = 4, LEFT_SIDE = 8, ALL_SIDES = 15 };

/* The start of an operation that is handed no contour. */
#define BY_SCAN SIZE_MAX

/* The numbers of the scope document's table. */
enum refusal {
    ACCEPTED,
    BAD_SIZE,
    BAD_LENGTH,
    QUEUE_TOO_SHORT,
    BAD_PIXEL,
    BAD_CONNECTIVITY,
    BAD_BORDER_VALUE,
    SEED_OUTSIDE,
    WRONG_CONTOUR,
    TOO_MANY_COMPONENTS,
    TOO_MANY_HOLES,
    TOO_FEW_RECORDS,
    BAD_VERSION,
    BAD_JOB_LENGTH,
    BAD_STEP,
    TOO_MANY_STEPS,
    BAD_PADDING,
    TOO_MANY_PIXELS,
    UNUSED_BIT_SET,
    REFUSALS
};

/* What can be called. The operations come first, numbered as the kinds of step records; there is no kind 6. */
enum kind {
    ERODE = 1,
    DILATE,
    PROPAGATE,
    FLOOD_FILL,
    CLEAR_BORDER,
    ERODE_BY_SIDES = 7,
    SCAN,
    CONTOUR,
    LABEL,
    DEPTH,
    WIDEN,
    ERODE_WORDS,
    ERODE_WORDS_BY_SIDES,
    DILATE_WORDS,
    PACK_WORDS,
    UNPACK_WORDS,
    READ_JOB,
    UNPACK_JOB,
    WRITE_JOB,
    RUN_STEPS,
    RUN_JOB,
    LIST_JOB,
    KINDS
};

/* A call: its numbers and what is lent to it. Each kind looks only at what its function in duhzarek.h has. */
struct call {
    enum kind kind;
    size_t width, height;
    size_t start;
    uint8_t connectivity, border_value, sides;
    uint16_t iterations, x, y;
    size_t contour_len;
    uint32_t component;
    size_t step_count;
    uint8_t *image, *mask, *bytes, *steps, *job;
    size_t image_len, mask_len, bytes_len, steps_len, job_len;
    uint16_t *queue, *components, *holes; /* components is also the map that WIDEN writes */
    size_t queue_len, components_len, holes_len;
    uint64_t *words;
    size_t words_len;
    uint32_t *records;
    size_t records_len;
    uint32_t *counts;                /* counts of duhzarek.h, or head */
    uint32_t *reports;               /* three numbers a step */
    uint32_t *scanned_len, *blank_rows; /* contour_len and blank_rows of a scan in duhzarek.h */
    uint8_t *listing;
};

/* Makes the call. The result is that of its function in duhzarek.h: a refusal, a length or a depth. */
size_t plain_call(const struct call *call);

/* How many holes the image of an accepted call has where background connects by the given connectivity. */
unsigned plain_count_holes(const struct call *call, unsigned connectivity);

/* Reads the step record at *at into a call that has the crop's size, and moves *at behind it. */
enum refusal plain_read_step(const uint8_t *steps, size_t steps_len, size_t *at, struct call *step);

#endif
