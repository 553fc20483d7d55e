/*
 * camera_rows.c: a crop that stays packed. The lane camera delivers rows of 64-bit words; specks of mud go by an
 * erosion and a dilation straight on those rows, and only what is left is unpacked.
 *
 *     cc -Iinclude -o camera_rows examples/camera_rows.c -Lbuild -lduhzarek
 */
#include <stdint.h>
#include <stdio.h>

#include "duhzarek.h"

/* A row takes two words, of which the second holds one pixel. */
enum { WIDTH = 65, HEIGHT = 13, ROW_WORDS = DUHZAREK_ROW_WORDS(WIDTH), WORDS = HEIGHT * ROW_WORDS };

/* The right of the frame cuts the 0. */
static const char *const camera[HEIGHT] = {
    ".............................................................#...",
    ".#..................#............................................",
    "...###..........###....###.......###..#...##########.....########",
    "...###..........###....###.......###..#...##########.....########",
    "...###..#.......###....###...##..###......##########.....########",
    "...###..........##########.......###.............###.....###...##",
    "...###..........##########.......###.............###..#..###.#.##",
    "...###..........##########.......###.............###.....###...##",
    "...#########....###....###.......###.........#...###.....########",
    "...#########.#..###....###.......###.............###.....########",
    "...#########....###....###.......###.............###.....########",
    ".............................#..........#............#...........",
    ".................................................................",
};

/* What the camera does: the first pixel of a row is in the top bit of its first word, unused bits are 0. */
static void deliver(uint64_t words[WORDS])
{
    for (int k = 0; k < WORDS; k++) {
        words[k] = 0;
    }
    for (int y = 0; y < HEIGHT; y++) {
        for (int x = 0; x < WIDTH; x++) {
            words[y * ROW_WORDS + x / 64] |= (uint64_t)(camera[y][x] == '#') << (63 - x % 64);
        }
    }
}

static void print_counts(const char *operation, const uint32_t counts[3])
{
    printf("%s: changed %u, used %u, area %u\n", operation, counts[0], counts[1], counts[2]);
}

/* The right side counts as object, so that the stroke that it cuts stays. */
static uint8_t clean(uint64_t words[WORDS])
{
    uint32_t counts[3];
    uint8_t refusal = duhzarek_erode_words_by_sides(WIDTH, HEIGHT, words, WORDS, 8, DUHZAREK_RIGHT_SIDE, 1,
                                                    counts);
    if (refusal != 0) {
        return refusal;
    }
    print_counts("erode", counts);
    refusal = duhzarek_dilate_words(WIDTH, HEIGHT, words, WORDS, 8, 1, counts);
    if (refusal != 0) {
        return refusal;
    }
    print_counts("dilate", counts);
    return 0;
}

static uint8_t print_image(const uint64_t words[WORDS])
{
    uint8_t image[WIDTH * HEIGHT];
    const uint8_t refusal = duhzarek_unpack_words(WIDTH, HEIGHT, words, WORDS, image, WIDTH * HEIGHT);
    for (int i = 0; refusal == 0 && i < WIDTH * HEIGHT; i++) {
        putchar(image[i] == 1 ? '#' : '.');
        if (i % WIDTH == WIDTH - 1) {
            putchar('\n');
        }
    }
    return refusal;
}

static void handle_crop(uint64_t words[WORDS])
{
    uint8_t refusal = clean(words);
    if (refusal == 0) {
        refusal = print_image(words);
    }
    if (refusal != 0) {
        printf("refused, %u\n", refusal);
    }
}

int main(void)
{
    uint64_t words[WORDS];
    puts("first crop");
    deliver(words);
    handle_crop(words);

    puts("\nsecond crop, with a bit behind the end of a row");
    deliver(words);
    words[ROW_WORDS - 1] |= 1;
    handle_crop(words);
    return 0;
}
