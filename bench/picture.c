/*
 * Pictures for bench/patterns. Spirals and serpentines are corridors one pixel wide, with gaps of one pixel; each
 * starts in the first column and row.
 */
#include "picture.h"

#include <stdbool.h>
#include <string.h>

static size_t smaller(size_t one, size_t other)
{
    return one < other ? one : other;
}

/* ---- whether a pixel is object */

/* Half of the pixels, by the last step of splitmix64 on the position. */
static bool is_noise(size_t x, size_t y, size_t width, size_t height)
{
    (void)height;
    uint64_t bits = (y * width + x + 1) * UINT64_C(0x9E3779B97F4A7C15);
    bits = (bits ^ (bits >> 30)) * UINT64_C(0xBF58476D1CE4E5B9);
    bits = (bits ^ (bits >> 27)) * UINT64_C(0x94D049BB133111EB);
    return (bits ^ (bits >> 31)) & 1;
}

static bool is_dark_square(size_t x, size_t y, size_t width, size_t height)
{
    (void)width, (void)height;
    return (x + y) % 2 == 0;
}

static bool is_dot(size_t x, size_t y, size_t width, size_t height)
{
    (void)width, (void)height;
    return x % 2 == 0 && y % 2 == 0;
}

static bool is_anything(size_t x, size_t y, size_t width, size_t height)
{
    return x < width && y < height;
}

static bool is_nothing(size_t x, size_t y, size_t width, size_t height)
{
    return !is_anything(x, y, width, height);
}

/* Nested rings. Each has a gap next to its first corner, and a link behind the gap joins it to the next ring. The
 * innermost ring has no link. */
static bool is_spiral(size_t x, size_t y, size_t width, size_t height)
{
    size_t depth = smaller(smaller(x, width - 1 - x), smaller(y, height - 1 - y));
    bool leads_on = smaller(width, height) > 2 * (depth + 1);
    bool is_gap_or_link = x == depth + 1 && y == depth && leads_on;
    return (depth % 2 == 0) != is_gap_or_link;
}

/* Every other column, and the links between them, below and above in turn. */
static bool is_serpentine(size_t x, size_t y, size_t width, size_t height)
{
    if (x % 2 == 0)
        return true;
    return x + 1 < width && y == (x % 4 == 1 ? height - 1 : 0);
}

/* ---- the pictures */

const char *const picture_names[PICTURES][2] = {
    {"plate", ""}, {"noise", ""}, {"checkers", ""}, {"dots", ""}, {"full", ""}, {"empty", ""},
    {"spiral", "upright"}, {"spiral", "lying"}, {"serpentine", "upright"}, {"serpentine", "lying"},
};

/* Of bench.c's plates, the first whose first background pixel belongs to the ground at both sizes. */
enum { PLATE = 0, PLATE_NUMBER = 3 };

static const struct {
    bool (*is_object)(size_t x, size_t y, size_t width, size_t height); /* NULL for the plate */
    bool lying;    /* rows and columns are exchanged */
    bool corridor; /* the seed is its start */
} patterns[PICTURES] = {
    {NULL, false, false},
    {is_noise, false, false},
    {is_dark_square, false, false},
    {is_dot, false, false},
    {is_anything, false, false},
    {is_nothing, false, false},
    {is_spiral, false, true},
    {is_spiral, true, true},
    {is_serpentine, false, true},
    {is_serpentine, true, true},
};

/* The first position from `at` on, round the crop's end, whose pixel has the value; `at` where none has it. */
static size_t find_pixel(const struct picture *picture, size_t at, uint8_t value)
{
    size_t len = picture->width * picture->height;
    for (size_t i = 0; i < len; i++) {
        if (picture->image[(at + i) % len] == value)
            return (at + i) % len;
    }
    return at;
}

static struct place place_at(const struct picture *picture, size_t at)
{
    struct place place = {(uint16_t)(at % picture->width), (uint16_t)(at / picture->width)};
    return place;
}

static void draw_plate(struct picture *picture)
{
    static struct plate plate;
    plate_make(&plate, (int)picture->width, (int)picture->height, PLATE_NUMBER);
    memcpy(picture->image, plate.image, sizeof plate.image);
    memcpy(picture->seed, plate.seed, sizeof plate.seed);
    picture->hole = plate.hole;
}

/* A picture without object pixels has no seed. */
static void draw_pattern(struct picture *picture, int number)
{
    size_t width = picture->width, height = picture->height, middle = height / 2 * width + width / 2;
    for (size_t at = 0; at < width * height; at++) {
        size_t x = at % width, y = at / width;
        picture->image[at] = patterns[number].lying ? patterns[number].is_object(y, x, height, width)
                                                    : patterns[number].is_object(x, y, width, height);
    }
    size_t seed = find_pixel(picture, patterns[number].corridor ? 0 : middle, 1);
    picture->seed[seed] = picture->image[seed];
    picture->hole = place_at(picture, find_pixel(picture, middle, 0));
}

void picture_make(struct picture *picture, size_t width, size_t height, int number)
{
    memset(picture, 0, sizeof *picture);
    picture->width = width;
    picture->height = height;
    if (number == PLATE)
        draw_plate(picture);
    else
        draw_pattern(picture, number);
    picture->ground = place_at(picture, find_pixel(picture, 0, 0));
}
