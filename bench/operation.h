/* The operations that bench/patterns measures, and what they work on. */
#ifndef OPERATION_H
#define OPERATION_H

#include "duhzarek.h"
#include "plate.h"

enum { TO_THE_END = 65535 };

/* In place of the blank rows where a build does not tell them; no crop has as many. */
enum { UNTOLD = 65535 };

enum kind {
    SCAN,
    ERODE,
    DILATE,
    PROPAGATE,
    FLOOD_FILL,
    CLEAR_BORDER,
    STEPS /* erode 8, dilate 8, clear border 8, flood fill 4 of a hole; as a list of steps */
};

/* Where the contour comes from. */
enum start {
    BY_SCAN,
    FROM_CONTOUR,  /* handed in, in the order in which the build's own scan leaves it */
    FROM_SHUFFLED, /* handed in, in another order */
    STARTS
};

/* A row of the tables. */
struct operation {
    const char *name;
    enum kind kind;
    uint8_t connectivity, border_value;
    uint16_t iterations;
    enum start start;
};

/* What an operation works on, and what it leaves. */
struct crop {
    size_t width, height, len;
    size_t start; /* as duhzarek.h says */
    struct place ground, hole;
    _Alignas(64) uint8_t image[MAX_PIXELS];
    _Alignas(64) uint8_t mask[MAX_PIXELS];
    _Alignas(64) uint16_t queue[MAX_PIXELS];
    uint32_t counts[3];  /* of a scan 0, 0 and the contour's length */
    uint32_t blank_rows; /* of a scan, or UNTOLD */
    uint32_t reports[DUHZAREK_MAX_STEPS][3];
};

/* Makes the call and returns its answer. The second is of an older build, made of operation.c too: bench/link.sh
 * renames its symbols. */
uint8_t operate(const struct operation *operation, struct crop *crop);
uint8_t operate_beside(const struct operation *operation, struct crop *crop);

#endif
