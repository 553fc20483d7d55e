/*
 * The same operations written straightforwardly, for comparison: whole-image steps with two buffers, floods
 * with a stack. It computes the image, or the label map with boxes and areas, and nothing else.
 *
 * An image has one byte a pixel, 0 background and 1 object, and a label map 16 bits, both row by row; width and
 * height are up to 256. The numbers and buffers handed in must be right. Not for several threads: the second
 * buffer is a static one.
 */
#ifndef STRAIGHTFORWARD_H
#define STRAIGHTFORWARD_H

#include <stdint.h>

enum { MAX_COMPONENTS = 4096 };

struct component {
    int area, left, top, right, bottom;
};

void straightforward_erode(int width, int height, uint8_t *image, int connectivity, int border_value,
                           int iterations);

/* The same, but it stops when nothing changes. */
void straightforward_erode_stopping(int width, int height, uint8_t *image, int connectivity, int border_value,
                                    int iterations);

void straightforward_dilate(int width, int height, uint8_t *image, int connectivity, int iterations);

void straightforward_propagate(int width, int height, uint8_t *image, int connectivity, int iterations,
                               const uint8_t *mask);

/* Propagation until nothing changes, of an image that lies inside the mask. */
void straightforward_reconstruct(int width, int height, uint8_t *image, int connectivity,
                                 const uint8_t *mask);

void straightforward_flood_fill(int width, int height, uint8_t *image, int connectivity, int x, int y);

void straightforward_clear_border(int width, int height, uint8_t *image, int connectivity);

/* Packs an image into words of 64 bits: each row starts a word, the first pixel is in the top bit. */
void straightforward_pack(int width, int height, const uint8_t *image, uint64_t *words);

void straightforward_unpack(int width, int height, const uint64_t *words, uint8_t *image);

/* Lists the positions of the object pixels with a background 4-neighbour. Returns how many there are. */
int straightforward_scan(int width, int height, const uint8_t *image, int *positions);

/* Labels the components from 1 in the order of their first pixels. Returns how many there are, or -1 where
 * there are more than MAX_COMPONENTS. */
int straightforward_label(int width, int height, const uint8_t *image, int connectivity, uint16_t *map,
                          struct component *components);

#endif
