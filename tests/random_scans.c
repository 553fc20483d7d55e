/*
 * random_scans.c: random scans, made of the library and of the reference side by side, of crops with blank rows.
 *
 *     random_scans [seed]
 *
 * Each row of a crop has an object pixel at least, often a single one at the end of the row or of a word; then rows
 * are cleared. The crop is scanned, wrong calls among them. After an accepted scan comes an operation from the contour
 * that it left, and another scan. Before these the smallest crops are scanned.
 */
#include "chance.h"
#include "compare.h"
#include "lent.h"

#include <stdio.h>
#include <string.h>

enum {
    CROPS = 40000,
    HIGHEST = 12,  /* rows of a crop at most, but for a high one */
    HIGH = 40,     /* one crop in so many may be as high as a crop can be */
    BAD = 40,      /* one argument in so many is a bad one */
    SMALLEST = 12, /* pixels that the smallest crops have at most */
    WORD = 64      /* pixels of a word */
};

/* Widths that have to come up. */
static const size_t widths[] = {1, 2, 63, 64, 65, 127, 128, 129, 255, 256};

enum { WIDTHS = sizeof widths / sizeof *widths };

/* The rows that are blank: one of these of every crop. Of a crop one pixel high either none is or all are. */
enum blank { NO_ROW, FIRST_ROW, LAST_ROW, OUTER_ROWS, SOME_ROWS, ALL_ROWS, BLANKS };

static const char *const blank_names[BLANKS] = {
    [NO_ROW] = "none", [FIRST_ROW] = "the first alone", [LAST_ROW] = "the last alone",
    [OUTER_ROWS] = "above and below a band", [SOME_ROWS] = "others", [ALL_ROWS] = "all",
};

/* Accepted scans by width and blank rows, those of crops one pixel high, and by width those of a crop in which some
 * row has its last pixel alone. */
static unsigned long met[WIDTHS][BLANKS], met_one_high[BLANKS], met_last_pixel[WIDTHS];

static size_t pixels(const struct call *call)
{
    return call->width * call->height;
}

/* ---- what was met */

/* How many object pixels the row has, in its columns from `from` on. */
static size_t count_in_row(const struct call *call, size_t y, size_t from)
{
    size_t count = 0;
    for (size_t x = from; x < call->width; x++)
        count += plain_bytes(IMAGE)[y * call->width + x] == 1;
    return count;
}

static size_t count_blank(const struct call *call, size_t top, size_t end)
{
    size_t count = 0;
    for (size_t y = top; y < end; y++)
        count += count_in_row(call, y, 0) == 0;
    return count;
}

/* Whether no row between the first and the last row that are not blank is blank. */
static bool is_band(const struct call *call)
{
    size_t top = 0, end = call->height;
    while (top < end && count_in_row(call, top, 0) == 0)
        top++;
    while (top < end && count_in_row(call, end - 1, 0) == 0)
        end--;
    return count_blank(call, top, end) == 0;
}

static enum blank blank_of(const struct call *call)
{
    size_t count = count_blank(call, 0, call->height);
    bool first = count_in_row(call, 0, 0) == 0;
    bool last = count_in_row(call, call->height - 1, 0) == 0;
    if (count == 0 || count == call->height)
        return count == 0 ? NO_ROW : ALL_ROWS;
    if (count == 1 && (first || last))
        return first ? FIRST_ROW : LAST_ROW;
    return first && last && is_band(call) ? OUTER_ROWS : SOME_ROWS;
}

static bool has_last_pixel_alone(const struct call *call)
{
    for (size_t y = 0; y < call->height; y++)
        if (count_in_row(call, y, 0) == 1 && count_in_row(call, y, call->width - 1) == 1)
            return true;
    return false;
}

static void count_met(const struct call *call)
{
    enum blank blank = blank_of(call);
    met_one_high[blank] += call->height == 1;
    for (size_t k = 0; k < WIDTHS; k++) {
        met[k][blank] += widths[k] == call->width;
        met_last_pixel[k] += widths[k] == call->width && has_last_pixel_alone(call);
    }
}

/* ---- crops */

/* The first or the last pixel of the row or of its first word, or any. */
static size_t draw_column(size_t width)
{
    const size_t columns[] = {0, width - 1, WORD - 1, WORD, below(width)};
    size_t x = columns[below(sizeof columns / sizeof *columns)];
    return x < width ? x : width - 1;
}

static void draw_rows(const struct call *call)
{
    uint8_t *image = plain_bytes(IMAGE);
    if (one_in(3))
        draw_image(image, call->width, call->height);
    else
        memset(image, 0, pixels(call));
    for (size_t y = 0; y < call->height; y++)
        image[y * call->width + draw_column(call->width)] = 1;
    draw_blank_rows(image, call->width, call->height);
}

static struct call draw_crop(void)
{
    struct call call = {.kind = SCAN};
    call.width = one_in(4) ? between(1, MAX_SIDE) : widths[below(WIDTHS)];
    call.height = one_in(8) ? 1 : between(1, one_in(HIGH) ? MAX_SIDE : HIGHEST);
    lend(IMAGE, pixels(&call));
    draw_rows(&call);
    hand_over(IMAGE);
    lend(QUEUE, pixels(&call) + (one_in(2) ? between(1, 40) : 0));
    return call;
}

/* A bad pixel may stand in a row that is blank but for it. */
static void spoil(struct call *call)
{
    size_t needed = pixels(call);
    if (one_in(BAD))
        draw_bad_pixel(plain_bytes(IMAGE), needed);
    hand_over(IMAGE);
    if (one_in(BAD))
        lend(IMAGE, draw_bad_length(needed));
    if (one_in(BAD))
        lend(QUEUE, below(needed));
    if (one_in(BAD))
        call->width = draw_bad_side(call->width);
    if (one_in(BAD))
        call->height = draw_bad_side(call->height);
}

/* ---- scans */

static void operate_from_scan(struct call call)
{
    static const enum kind kinds[] = {ERODE, ERODE_BY_SIDES, DILATE, CLEAR_BORDER};
    call.kind = kinds[below(sizeof kinds / sizeof *kinds)];
    call.connectivity = one_in(2) ? 4 : 8;
    call.border_value = (uint8_t)below(2);
    call.sides = (uint8_t)below(ALL_SIDES + 1);
    call.iterations = (uint16_t)below(4);
    call.start = contour_told(SCAN);
    if (try_call(&call) != ACCEPTED)
        fail(&call, "refused, from the contour that a scan left");
}

static void scan_crop(void)
{
    struct call call = draw_crop();
    spoil(&call);
    if (try_call(&call) != ACCEPTED)
        return;
    count_met(&call);
    operate_from_scan(call);
    try_call(&call);
}

static void scan_bits(size_t width, size_t height, unsigned bits)
{
    const struct call call = {.kind = SCAN, .width = width, .height = height};
    lend(QUEUE, pixels(&call));
    lend(IMAGE, pixels(&call));
    for (size_t at = 0; at < pixels(&call); at++)
        plain_bytes(IMAGE)[at] = (bits >> at) & 1;
    hand_over(IMAGE);
    try_call(&call);
}

static void scan_smallest_crops(void)
{
    for (size_t width = 1; width <= SMALLEST; width++)
        for (size_t height = 1; width * height <= SMALLEST; height++)
            for (unsigned bits = 0; bits < 1u << (width * height); bits++)
                scan_bits(width, height, bits);
}

/* ---- what has to be met */

static bool check_width(size_t k)
{
    bool good = met_last_pixel[k] > 0;
    if (!good)
        fprintf(stderr, "width %zu: no row had its last pixel alone\n", widths[k]);
    for (enum blank blank = 0; blank < BLANKS; blank++) {
        if (met[k][blank] > 0)
            continue;
        fprintf(stderr, "width %zu: no crop had these blank rows: %s\n", widths[k], blank_names[blank]);
        good = false;
    }
    return good;
}

static bool check_all_met(void)
{
    bool good = met_one_high[NO_ROW] > 0 && met_one_high[ALL_ROWS] > 0;
    if (!good)
        fprintf(stderr, "of the crops one pixel high not some were blank and some not\n");
    for (size_t k = 0; k < WIDTHS; k++)
        good = check_width(k) && good;
    return good;
}

static unsigned long total_by_blank(enum blank blank)
{
    unsigned long total = 0;
    for (size_t k = 0; k < WIDTHS; k++)
        total += met[k][blank];
    return total;
}

static unsigned long total_by_width(size_t k)
{
    unsigned long total = 0;
    for (enum blank blank = 0; blank < BLANKS; blank++)
        total += met[k][blank];
    return total;
}

static void print_met(void)
{
    printf("blank rows:");
    for (enum blank blank = 0; blank < BLANKS; blank++)
        printf("%s %s: %lu", blank == 0 ? "" : ",", blank_names[blank], total_by_blank(blank));
    printf("; one pixel high, not blank: %lu, blank: %lu; by width", met_one_high[NO_ROW], met_one_high[ALL_ROWS]);
    for (size_t k = 0; k < WIDTHS; k++)
        printf(" %zu: %lu", widths[k], total_by_width(k));
    printf("\n");
}

int main(int argc, char **argv)
{
    begin_test(argc, argv, "crop");
    scan_smallest_crops();
    for (size_t left = CROPS; left > 0; left--) {
        begin_unit();
        scan_crop();
    }
    print_met();
    end_test(SCAN, SCAN);
    return check_all_met() ? 0 : 1;
}
