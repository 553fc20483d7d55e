/*
 * chance.h: what the random tests draw: numbers from a generator of their own, so that a seed gives the same
 * test everywhere, and crops, images and arguments of the sorts that matter, wrong ones too.
 */
#ifndef CHANCE_H
#define CHANCE_H

#include <stdbool.h>
#include <stddef.h>
#include <stdint.h>

void seed_chance(uint64_t seed);

uint64_t draw(void);

/* From 0 up to, but not including, n. */
size_t below(size_t n);

/* From low up to high, both included. */
size_t between(size_t low, size_t high);

/* True once in n times. */
bool one_in(size_t n);

uint8_t draw_byte(void);

void draw_bytes(uint8_t *bytes, size_t len);

/* A crop's size: mostly small, often one pixel high or wide, some with room for about 256 or 1,024 components
 * or holes; a large one once in `large` times. */
void draw_size(size_t large, size_t *width, size_t *height);

/* Clears rows of an image: none, the first, the last, those outside a band, some, or all. */
void draw_blank_rows(uint8_t *image, size_t width, size_t height);

/* Noise of some density, a regular figure or nothing, perhaps with a few pixels turned over, perhaps with rows
 * cleared. */
void draw_image(uint8_t *image, size_t width, size_t height);

/* Dots or holes, with a few pixels turned over, in a crop that has room for some 1,000 of them. */
void draw_crowd_size(size_t *width, size_t *height);
void draw_crowd(uint8_t *image, size_t width, size_t height);

/* A winding path, upright or lying, perhaps with a few pixels turned over. */
void draw_path(uint8_t *image, size_t width, size_t height);

/* Mostly few, also none and 65,535. */
uint16_t draw_iterations(void);

/* 0, too large, or the given number with a bit set that a narrower number would lose. */
size_t draw_bad_side(size_t side);

/* Another length than the one needed, which is at least 1. */
size_t draw_bad_length(size_t needed);

/* Spoils one pixel, if there is any. */
void draw_bad_pixel(uint8_t *image, size_t len);

#endif
