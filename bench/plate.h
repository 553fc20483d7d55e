/* Plate-like crops for the benchmarks. */
#ifndef PLATE_H
#define PLATE_H

#include <stdint.h>

enum { MAX_PIXELS = 256 * 256, MAX_WORDS = MAX_PIXELS / 64 };

struct place {
    uint16_t x, y;
};

struct plate {
    int width, height;
    struct place hole;           /* in the loop of a character */
    struct place ground;         /* between the frame and the characters */
    uint8_t image[MAX_PIXELS];   /* one byte a pixel, 0 background and 1 object */
    uint8_t seed[MAX_PIXELS];    /* the image's pixels on the middle line of each row of characters */
    uint8_t muddy[MAX_PIXELS];   /* the image with hundreds of specks, each a component of its own */
    uint8_t blanked[MAX_PIXELS]; /* the image with the rows above and below its middle half cleared */
};

/* Makes a plate: a frame along the border, seven characters, specks. The same number gives the same plate. */
void plate_make(struct plate *plate, int width, int height, uint32_t number);

#endif
