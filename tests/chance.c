/*
 * chance.c: the generator of chance.h, which is splitmix64, and what is drawn with it.
 */
#include "chance.h"

#include <string.h>

enum { LARGE_PIXELS = 2000 };

static uint64_t state;

void seed_chance(uint64_t seed)
{
    state = seed;
}

uint64_t draw(void)
{
    state += UINT64_C(0x9E3779B97F4A7C15);
    uint64_t bits = state;
    bits = (bits ^ (bits >> 30)) * UINT64_C(0xBF58476D1CE4E5B9);
    bits = (bits ^ (bits >> 27)) * UINT64_C(0x94D049BB133111EB);
    return bits ^ (bits >> 31);
}

size_t below(size_t n)
{
    return (size_t)(draw() % n);
}

size_t between(size_t low, size_t high)
{
    return low + below(high - low + 1);
}

bool one_in(size_t n)
{
    return below(n) == 0;
}

uint8_t draw_byte(void)
{
    return (uint8_t)below(256);
}

void draw_bytes(uint8_t *bytes, size_t len)
{
    uint64_t bits;
    for (; len >= sizeof bits; bytes += sizeof bits, len -= sizeof bits) {
        bits = draw();
        memcpy(bytes, &bits, sizeof bits);
    }
    bits = draw();
    memcpy(bytes, &bits, len);
}

static void draw_large_size(size_t *width, size_t *height)
{
    static const size_t sizes[][2] = {{256, 256}, {255, 256}, {200, 90}, {128, 64}, {128, 65}, {256, 32},
                                      {256, 33}, {91, 90}, {32, 256}, {181, 46}};
    const size_t *size = sizes[below(sizeof sizes / sizeof *sizes)];
    *width = size[0];
    *height = size[1];
}

void draw_crowd_size(size_t *width, size_t *height)
{
    *width = between(61, 66);
    *height = between(61, 66);
}

void draw_size(size_t large, size_t *width, size_t *height)
{
    size_t sort = below(100);
    *width = between(1, 12);
    *height = between(1, 9);
    if (one_in(large)) {
        draw_large_size(width, height);
    } else if (sort < 6) {
        *width = 1;
        *height = one_in(6) ? 256 : between(1, 60);
    } else if (sort < 12) {
        *width = one_in(6) ? 256 : between(1, 60);
        *height = 1;
    } else if (sort < 45) {
        *width = between(1, 40);
        *height = between(1, 30);
    } else if (sort < 57) {
        *width = between(31, 34);
        *height = between(31, 34);
    } else if (sort < 58) {
        draw_crowd_size(width, height);
    }
}

static size_t nearest_edge(size_t x, size_t y, size_t width, size_t height)
{
    size_t column = x < width - 1 - x ? x : width - 1 - x;
    size_t row = y < height - 1 - y ? y : height - 1 - y;
    return column < row ? column : row;
}

/* Columns and rows from the middle, added up. */
static size_t from_middle(size_t x, size_t y, size_t width, size_t height)
{
    size_t column = (width - 1) / 2;
    size_t row = (height - 1) / 2;
    return (x > column ? x - column : column - x) + (y > row ? y - row : row - y);
}

enum figure {
    NESTED_RINGS,
    NOTCHED_RINGS,  /* without their upper left corners: closed by 8 alone */
    DIAMONDS,       /* closed by 8 alone; in the inverse the background between the rings is */
    THICK_DIAMONDS, /* closed by 4, and so is the background between them */
    SMALL_RINGS,
    COMB,
    CHECKERBOARD,
    DOTS,
    HOLES,
    WINDING_PATH,
    FIGURES
};

static bool figure_pixel(enum figure figure, size_t x, size_t y, size_t width, size_t height)
{
    size_t edge = nearest_edge(x, y, width, height);
    switch (figure) {
    case NESTED_RINGS:
        return edge % 2 == 0;
    case NOTCHED_RINGS:
        return edge % 2 == 0 && !(x == edge && y == edge);
    case DIAMONDS:
        return from_middle(x, y, width, height) % 3 == 0;
    case THICK_DIAMONDS:
        return from_middle(x, y, width, height) % 4 < 2;
    case SMALL_RINGS:
        return x % 4 < 3 && y % 4 < 3 && !(x % 4 == 1 && y % 4 == 1);
    case COMB:
        return y == 0 || x % 2 == 0;
    case CHECKERBOARD:
        return (x + y) % 2 == 0;
    case DOTS:
        return x % 2 == 0 && y % 2 == 0;
    case HOLES:
        return x % 2 == 0 || y % 2 == 0;
    default:
        return y % 2 == 0 || x == (y % 4 == 1 ? width - 1 : 0);
    }
}

static void put_figure(uint8_t *image, enum figure figure, bool inverse, size_t width, size_t height)
{
    for (size_t at = 0; at < width * height; at++)
        image[at] = figure_pixel(figure, at % width, at / width, width, height) != inverse;
}

/* A winding path through a large mask would take the reference minutes. */
static void draw_figure(uint8_t *image, size_t width, size_t height)
{
    enum figure figure = (enum figure)below(width * height > LARGE_PIXELS ? WINDING_PATH : FIGURES);
    put_figure(image, figure, one_in(4), width, height);
}

static void draw_noise(uint8_t *image, size_t len)
{
    static const size_t percents[] = {0, 2, 10, 20, 35, 50, 60, 70, 80, 98, 100};
    size_t percent = percents[below(sizeof percents / sizeof *percents)];
    for (size_t at = 0; at < len; at++)
        image[at] = below(100) < percent;
}

static void turn_pixels(uint8_t *image, size_t len, size_t turned)
{
    for (size_t k = 0; k < turned; k++)
        image[below(len)] ^= 1;
}

void draw_crowd(uint8_t *image, size_t width, size_t height)
{
    put_figure(image, one_in(2) ? DOTS : HOLES, false, width, height);
    turn_pixels(image, width * height, below(4));
}

void draw_path(uint8_t *image, size_t width, size_t height)
{
    bool upright = one_in(2);
    for (size_t at = 0; at < width * height; at++) {
        size_t x = at % width, y = at / width;
        image[at] = upright ? figure_pixel(WINDING_PATH, y, x, height, width)
                            : figure_pixel(WINDING_PATH, x, y, width, height);
    }
    turn_pixels(image, width * height, below(3));
}

static void clear_outside(uint8_t *image, size_t width, size_t height, size_t top, size_t end)
{
    memset(image, 0, top * width);
    memset(image + end * width, 0, (height - end) * width);
}

static void clear_some(uint8_t *image, size_t width, size_t height)
{
    for (size_t y = 0; y < height; y++)
        if (one_in(2))
            memset(image + y * width, 0, width);
}

void draw_blank_rows(uint8_t *image, size_t width, size_t height)
{
    size_t top = below(height), end = between(top, height);
    switch (below(6)) {
    case 0:
        return;
    case 1:
        clear_outside(image, width, height, 1, height);
        return;
    case 2:
        clear_outside(image, width, height, 0, height - 1);
        return;
    case 3:
        clear_outside(image, width, height, top, end);
        return;
    case 4:
        clear_outside(image, width, height, 0, 0);
        return;
    default:
        clear_some(image, width, height);
    }
}

void draw_image(uint8_t *image, size_t width, size_t height)
{
    size_t turned = one_in(2) ? between(1, 3) : 0;
    size_t sort = below(10);
    if (sort < 4)
        draw_noise(image, width * height);
    else if (sort < 9)
        draw_figure(image, width, height);
    else
        memset(image, 0, width * height);
    turn_pixels(image, width * height, turned);
    if (one_in(4))
        draw_blank_rows(image, width, height);
}

uint16_t draw_iterations(void)
{
    size_t sort = below(100);
    if (sort < 8)
        return 0;
    if (sort < 50)
        return 1;
    if (sort < 90)
        return (uint16_t)between(2, sort < 75 ? 3 : 20);
    return (uint16_t)(sort < 97 ? 65535 : below(65536));
}

size_t draw_bad_side(size_t side)
{
    const size_t sides[] = {0, 257, 256 + side, 65536 + side, ((size_t)1 << 32) + side, (size_t)1 << 63,
                            SIZE_MAX};
    return sides[below(sizeof sides / sizeof *sides)];
}

size_t draw_bad_length(size_t needed)
{
    switch (below(4)) {
    case 0:
        return needed - 1;
    case 1:
        return needed + between(1, 40);
    default:
        return below(needed);
    }
}

void draw_bad_pixel(uint8_t *image, size_t len)
{
    if (len > 0)
        image[below(len)] = (uint8_t)between(2, 255);
}
