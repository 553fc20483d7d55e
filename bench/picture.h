/* Pictures for bench/patterns: a plate, and such as no plate looks like. */
#ifndef PICTURE_H
#define PICTURE_H

#include "plate.h"

#include <stddef.h>

enum { PICTURES = 10 };

struct picture {
    size_t width, height;
    uint8_t image[MAX_PIXELS]; /* and the mask of a propagation */
    uint8_t seed[MAX_PIXELS];  /* from which it propagates: a pixel, the corridor's start, or as plate.h says */
    struct place ground;       /* the first background pixel */
    struct place hole;         /* of a plate, in the loop of a character; else a background pixel in the middle */
};

/* The name and, where there are two, the direction of the corridor. */
extern const char *const picture_names[PICTURES][2];

/* Makes a picture, the one of that name. The same number and size give the same picture. */
void picture_make(struct picture *picture, size_t width, size_t height, int number);

#endif
