/*
 * pbm.h: pictures as PBM files, plain (P1) or packed (P4), up to 256 by 256. Black, 1, is object.
 */
#ifndef PBM_H
#define PBM_H

#include <stdbool.h>
#include <stddef.h>
#include <stdint.h>

#include "duhzarek.h"

/* The first width * height pixels count, row by row from the top, a byte each. */
struct picture {
    size_t width, height;
    uint8_t pixels[DUHZAREK_MAX_PIXELS];
};

/* Reads a file ("-" is standard input) with one picture, or fails with a line that says what is wrong and
 * where. Comments and white space may stand wherever PBM allows them. Anything but these behind the last
 * pixel fails, though PBM would pass over it: most likely the size is wrong. */
void read_picture(const char *path, struct picture *picture);

/* Writes a file, plain or packed, or fails. */
void write_picture(const char *path, const struct picture *picture, bool plain);

#endif
