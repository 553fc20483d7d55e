/*
 * Plate-like crops for the benchmarks, from a fixed start of a small random generator: a frame along the
 * border, seven characters drawn in strokes with rough edges, and specks, both object and background.
 */
#include "plate.h"

#include <stddef.h>
#include <string.h>

enum { CHARACTERS = 7 };

/* Characters as strokes between the points of a grid, three across and five down, lettered row by row: each
 * letter is joined to the next one, and a space lifts the pen. The first has a loop around its middle. */
static const char *const glyphs[] = {
    "acoma", "dbn mo", "acigmo", "acom gi", "agi co", "cagiom", "camoig", "acm", "acoma gi", "igacom",
    "mdbfo jl", "camo gi", "cam gi", "am co gi", "am gc go", "amo", "macig", "acmo", "ac bn", "ahn ch"};

enum { GLYPHS = sizeof glyphs / sizeof glyphs[0] };

/* The rectangle through the outer points of a character's grid, and the width of its strokes. */
struct cell {
    double left, top, width, height, stroke;
};

struct point {
    double x, y;
};

static uint32_t random_state;

/* A whole number from low to high; xorshift, which never leaves 0. */
static int between(int low, int high)
{
    random_state ^= random_state << 13;
    random_state ^= random_state >> 17;
    random_state ^= random_state << 5;
    return low + (int)((random_state >> 8) % (uint32_t)(high - low + 1));
}

static int smaller(int a, int b)
{
    return a < b ? a : b;
}

static double clamp(double value, double low, double high)
{
    return value < low ? low : value > high ? high : value;
}

static double distance_squared(struct point p, struct point from, struct point to)
{
    double dx = to.x - from.x, dy = to.y - from.y;
    double along = ((p.x - from.x) * dx + (p.y - from.y) * dy) / (dx * dx + dy * dy);
    double t = clamp(along, 0, 1);
    double ex = p.x - from.x - t * dx, ey = p.y - from.y - t * dy;
    return ex * ex + ey * ey;
}

static void draw_stroke(struct plate *plate, struct point from, struct point to, double stroke)
{
    for (int y = 0; y < plate->height; y++) {
        for (int x = 0; x < plate->width; x++) {
            struct point p = {x + 0.5, y + 0.5};
            double reach = stroke / 2 + between(-40, 40) / 100.0;
            if (distance_squared(p, from, to) <= reach * reach)
                plate->image[y * plate->width + x] = 1;
        }
    }
}

static struct point grid_point(const struct cell *cell, char letter)
{
    int index = letter - 'a';
    struct point p = {cell->left + cell->width * (index % 3) / 2, cell->top + cell->height * (index / 3) / 4};
    return p;
}

static void draw_glyph(struct plate *plate, const char *glyph, const struct cell *cell)
{
    for (size_t i = 0; glyph[i + 1] != '\0'; i++) {
        if (glyph[i] != ' ' && glyph[i + 1] != ' ')
            draw_stroke(plate, grid_point(cell, glyph[i]), grid_point(cell, glyph[i + 1]), cell->stroke);
    }
}

static int frame_width(const struct plate *plate)
{
    return 2 + smaller(plate->width, plate->height) / 40;
}

static void draw_frame(struct plate *plate)
{
    int width = plate->width, height = plate->height, thickness = frame_width(plate);
    for (int y = 0; y < height; y++) {
        for (int x = 0; x < width; x++) {
            int depth = smaller(smaller(x, width - 1 - x), smaller(y, height - 1 - y));
            if (depth + between(0, 1) <= thickness - 1)
                plate->image[y * width + x] = 1;
        }
    }
}

/* A square of one value, cut off at the border. */
static void draw_square(struct plate *plate, int left, int top, int side, uint8_t value)
{
    for (int y = top; y < smaller(top + side, plate->height); y++) {
        for (int x = left; x < smaller(left + side, plate->width); x++)
            plate->image[y * plate->width + x] = value;
    }
}

static void draw_specks(struct plate *plate)
{
    int count = (plate->width + plate->height) / 8;
    for (int i = 0; i < count; i++) {
        uint8_t value = between(0, 2) > 0;
        int side = between(1, 2 + smaller(plate->width, plate->height) / 128);
        draw_square(plate, between(0, plate->width - 1), between(0, plate->height - 1), side, value);
    }
}

/* Crops that are less than twice as wide as high have two rows of characters. */
static int row_count(const struct plate *plate)
{
    return plate->width < 2 * plate->height ? 2 : 1;
}

static struct cell cell_of(const struct plate *plate, int row, int column, int columns, int stroke_share)
{
    double margin = frame_width(plate) + 2;
    double row_height = plate->height / (double)row_count(plate);
    double cell_width = (plate->width - 2 * margin) / columns;
    double height = 0.57 * row_height;
    double width = clamp(0.55 * height, 0, cell_width - 5);
    double stroke = height * stroke_share / 1000;
    double left = margin + cell_width * column + (cell_width - width + stroke) / 2;
    double top = row_height * row + (row_height - height + stroke) / 2;
    struct cell cell = {left, top, width - stroke, height - stroke, stroke};
    return cell;
}

static void draw_characters(struct plate *plate)
{
    int rows = row_count(plate), looped = between(0, CHARACTERS - 1), stroke_share = between(115, 145);
    for (int i = 0; i < CHARACTERS; i++) {
        int row = i * rows / CHARACTERS, first = (row * CHARACTERS + rows - 1) / rows;
        int columns = ((row + 1) * CHARACTERS + rows - 1) / rows - first;
        struct cell cell = cell_of(plate, row, i - first, columns, stroke_share);
        draw_glyph(plate, glyphs[i == looped ? 0 : between(0, GLYPHS - 1)], &cell);
        if (i == looped) {
            plate->hole.x = (uint16_t)(cell.left + cell.width / 2);
            plate->hole.y = (uint16_t)(cell.top + cell.height / 2);
        }
    }
}

/* A speck may lie on a place from which to fill; it is taken away. */
static void clear_places(struct plate *plate)
{
    plate->ground.x = plate->ground.y = (uint16_t)(frame_width(plate) + 2);
    draw_square(plate, plate->ground.x - 1, plate->ground.y - 1, 3, 0);
    draw_square(plate, plate->hole.x - 1, plate->hole.y - 1, 3, 0);
}

static void mark_seed(struct plate *plate)
{
    size_t width = (size_t)plate->width;
    memset(plate->seed, 0, sizeof plate->seed);
    for (int row = 0, rows = row_count(plate); row < rows; row++) {
        size_t start = (size_t)(plate->height * (2 * row + 1) / (2 * rows)) * width;
        memcpy(plate->seed + start, plate->image + start, width);
    }
}

static int is_clear_around(const struct plate *plate, int x, int y)
{
    for (int row = y - 1; row <= y + 1; row++) {
        for (int column = x - 1; column <= x + 1; column++) {
            if (plate->muddy[row * plate->width + column])
                return 0;
        }
    }
    return 1;
}

/* A speck that would touch an object is left out. */
static void draw_mud(struct plate *plate)
{
    int count = plate->width * plate->height / 8;
    memcpy(plate->muddy, plate->image, sizeof plate->muddy);
    for (int i = 0; i < count; i++) {
        int x = between(1, plate->width - 2), y = between(1, plate->height - 2);
        if (is_clear_around(plate, x, y))
            plate->muddy[y * plate->width + x] = 1;
    }
}

static void blank_rows(struct plate *plate)
{
    size_t width = (size_t)plate->width, top = (size_t)plate->height / 4, kept = (size_t)plate->height / 2;
    memset(plate->blanked, 0, sizeof plate->blanked);
    memcpy(plate->blanked + top * width, plate->image + top * width, kept * width);
}

void plate_make(struct plate *plate, int width, int height, uint32_t number)
{
    random_state = number * 2654435769U | 1U;
    plate->width = width;
    plate->height = height;
    memset(plate->image, 0, sizeof plate->image);
    draw_frame(plate);
    draw_characters(plate);
    draw_specks(plate);
    clear_places(plate);
    mark_seed(plate);
    draw_mud(plate);
    blank_rows(plate);
}
