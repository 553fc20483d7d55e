/* The operations written straightforwardly; straightforward.h says how. */
#include "straightforward.h"

#include <stddef.h>
#include <string.h>

enum { MAX_PIXELS = 256 * 256 };

struct grid {
    int width, height, connectivity, border_value;
    const uint8_t *mask;
};

/* A whole-image step. */
typedef void (*step_function)(const struct grid *grid, const uint8_t *from, uint8_t *to);

/* The 4-neighbours come first. */
static const int across[8] = {-1, 1, 0, 0, -1, 1, -1, 1};
static const int down[8] = {0, 0, -1, 1, -1, -1, 1, 1};

static uint8_t second_buffer[MAX_PIXELS];
static int stack[MAX_PIXELS];

static int is_inside(const struct grid *grid, int x, int y)
{
    return x >= 0 && x < grid->width && y >= 0 && y < grid->height;
}

static int pixel_at(const struct grid *grid, const uint8_t *image, int x, int y)
{
    return is_inside(grid, x, y) ? image[y * grid->width + x] : grid->border_value;
}

static int has_neighbour(const struct grid *grid, const uint8_t *image, int x, int y, int value)
{
    for (int k = 0; k < grid->connectivity; k++) {
        if (pixel_at(grid, image, x + across[k], y + down[k]) == value)
            return 1;
    }
    return 0;
}

static void erode_once(const struct grid *grid, const uint8_t *from, uint8_t *to)
{
    for (int y = 0; y < grid->height; y++) {
        for (int x = 0; x < grid->width; x++) {
            int at = y * grid->width + x;
            to[at] = from[at] && !has_neighbour(grid, from, x, y, 0);
        }
    }
}

static void dilate_once(const struct grid *grid, const uint8_t *from, uint8_t *to)
{
    for (int y = 0; y < grid->height; y++) {
        for (int x = 0; x < grid->width; x++) {
            int at = y * grid->width + x;
            to[at] = from[at] || has_neighbour(grid, from, x, y, 1);
        }
    }
}

static void propagate_once(const struct grid *grid, const uint8_t *from, uint8_t *to)
{
    dilate_once(grid, from, to);
    for (int at = 0; at < grid->width * grid->height; at++)
        to[at] &= grid->mask[at];
}

/* Repeats a step, as often as asked or, where it is to stop early, until nothing changes. */
static void repeat(const struct grid *grid, uint8_t *image, step_function step, int iterations, int stops)
{
    size_t len = (size_t)(grid->width * grid->height);
    uint8_t *from = image, *to = second_buffer;
    for (int i = 0; i < iterations; i++) {
        step(grid, from, to);
        uint8_t *before = from;
        from = to;
        to = before;
        if (stops && memcmp(from, to, len) == 0)
            break;
    }
    if (from != image)
        memcpy(image, from, len);
}

void straightforward_erode(int width, int height, uint8_t *image, int connectivity, int border_value,
                           int iterations)
{
    struct grid grid = {width, height, connectivity, border_value, NULL};
    repeat(&grid, image, erode_once, iterations, 0);
}

void straightforward_erode_stopping(int width, int height, uint8_t *image, int connectivity, int border_value,
                                    int iterations)
{
    struct grid grid = {width, height, connectivity, border_value, NULL};
    repeat(&grid, image, erode_once, iterations, 1);
}

void straightforward_dilate(int width, int height, uint8_t *image, int connectivity, int iterations)
{
    struct grid grid = {width, height, connectivity, 0, NULL};
    repeat(&grid, image, dilate_once, iterations, 0);
}

void straightforward_propagate(int width, int height, uint8_t *image, int connectivity, int iterations,
                               const uint8_t *mask)
{
    struct grid grid = {width, height, connectivity, 0, mask};
    repeat(&grid, image, propagate_once, iterations, 0);
}

/* Floods from the `count` positions on the stack, which have the new value already. */
static void flood(const struct grid *grid, uint8_t *image, int count, uint8_t old, uint8_t new)
{
    while (count > 0) {
        int at = stack[--count], x = at % grid->width, y = at / grid->width;
        for (int k = 0; k < grid->connectivity; k++) {
            int next = (y + down[k]) * grid->width + x + across[k];
            if (is_inside(grid, x + across[k], y + down[k]) && image[next] == old) {
                image[next] = new;
                stack[count++] = next;
            }
        }
    }
}

/* Gives a pixel with the old value the new one and puts it on the stack. Returns the stack's height. */
static int push_pixel(uint8_t *image, int at, int count, uint8_t old, uint8_t new)
{
    if (image[at] != old)
        return count;
    image[at] = new;
    stack[count] = at;
    return count + 1;
}

void straightforward_reconstruct(int width, int height, uint8_t *image, int connectivity,
                                 const uint8_t *mask)
{
    struct grid grid = {width, height, connectivity, 0, NULL};
    int count = 0, len = width * height;
    memcpy(second_buffer, mask, (size_t)len);
    for (int at = 0; at < len; at++) {
        if (image[at])
            count = push_pixel(second_buffer, at, count, 1, 2);
    }
    flood(&grid, second_buffer, count, 1, 2);
    for (int at = 0; at < len; at++)
        image[at] = second_buffer[at] == 2;
}

void straightforward_flood_fill(int width, int height, uint8_t *image, int connectivity, int x, int y)
{
    struct grid grid = {width, height, connectivity, 0, NULL};
    int count = push_pixel(image, y * width + x, 0, 0, 1);
    flood(&grid, image, count, 0, 1);
}

void straightforward_clear_border(int width, int height, uint8_t *image, int connectivity)
{
    struct grid grid = {width, height, connectivity, 0, NULL};
    int count = 0;
    for (int x = 0; x < width; x++) {
        count = push_pixel(image, x, count, 1, 0);
        count = push_pixel(image, (height - 1) * width + x, count, 1, 0);
    }
    for (int y = 0; y < height; y++) {
        count = push_pixel(image, y * width, count, 1, 0);
        count = push_pixel(image, y * width + width - 1, count, 1, 0);
    }
    flood(&grid, image, count, 1, 0);
}

void straightforward_pack(int width, int height, const uint8_t *image, uint64_t *words)
{
    int row_words = (width + 63) / 64;
    memset(words, 0, (size_t)(row_words * height) * sizeof words[0]);
    for (int y = 0; y < height; y++) {
        for (int x = 0; x < width; x++)
            words[y * row_words + x / 64] |= (uint64_t)image[y * width + x] << (63 - x % 64);
    }
}

void straightforward_unpack(int width, int height, const uint64_t *words, uint8_t *image)
{
    int row_words = (width + 63) / 64;
    for (int y = 0; y < height; y++) {
        for (int x = 0; x < width; x++)
            image[y * width + x] = words[y * row_words + x / 64] >> (63 - x % 64) & 1;
    }
}

int straightforward_scan(int width, int height, const uint8_t *image, int *positions)
{
    struct grid grid = {width, height, 4, 1, NULL};
    int count = 0;
    for (int y = 0; y < height; y++) {
        for (int x = 0; x < width; x++) {
            if (image[y * width + x] && has_neighbour(&grid, image, x, y, 0))
                positions[count++] = y * width + x;
        }
    }
    return count;
}

static void extend_component(struct component *component, int x, int y)
{
    component->area++;
    if (x < component->left)
        component->left = x;
    if (x > component->right)
        component->right = x;
    if (y < component->top)
        component->top = y;
    if (y > component->bottom)
        component->bottom = y;
}

/* Labels the component of the pixel in column x and row y. */
static struct component label_component(const struct grid *grid, const uint8_t *image, int x, int y,
                                        uint16_t *map, uint16_t label)
{
    struct component component = {0, x, y, x, y};
    int count = 1;
    stack[0] = y * grid->width + x;
    map[stack[0]] = label;
    while (count > 0) {
        int at = stack[--count], column = at % grid->width, row = at / grid->width;
        extend_component(&component, column, row);
        for (int k = 0; k < grid->connectivity; k++) {
            int next = (row + down[k]) * grid->width + column + across[k];
            if (is_inside(grid, column + across[k], row + down[k]) && image[next] && !map[next]) {
                map[next] = label;
                stack[count++] = next;
            }
        }
    }
    return component;
}

int straightforward_label(int width, int height, const uint8_t *image, int connectivity, uint16_t *map,
                          struct component *components)
{
    struct grid grid = {width, height, connectivity, 0, NULL};
    int count = 0;
    memset(map, 0, (size_t)(width * height) * sizeof map[0]);
    for (int at = 0; at < width * height; at++) {
        if (!image[at] || map[at])
            continue;
        if (count == MAX_COMPONENTS)
            return -1;
        components[count] = label_component(&grid, image, at % width, at / width, map, (uint16_t)(count + 1));
        count++;
    }
    return count;
}
