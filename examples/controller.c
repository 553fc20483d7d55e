/*
 * controller.c: a lane controller in miniature. It takes a crop from the camera, cleans it up and labels what
 * is left; specks of mud are gone by then. A crop that is refused sends the car to the window: a faulty one, or
 * one with too many components left.
 *
 *     cc -Iinclude -o controller examples/controller.c -Lbuild -lduhzarek
 */
#include <stdint.h>
#include <stdio.h>
#include <string.h>

#include "duhzarek.h"

enum { WIDTH = 30, HEIGHT = 21, PIXELS = WIDTH * HEIGHT };

/* The most components of a cleaned plate. The lane lends records for no more, so a crop with more is refused: 11. */
enum { MAX_COMPONENTS = 20 };

/* The holder bolts every plate at the same place. The slot in the bolt's head shines. */
enum { SLOT_X = 7, SLOT_Y = 10 };

/* A 3, but slivers of shadow join it to the bolt beside it and close both bays, as in an 8. */
static const char *const camera[HEIGHT] = {
    "##############################",
    "##############################",
    "##..........................##",
    "##.............##########...##",
    "##.........###############..##",
    "##........#....###########..##",
    "##....####.............###..##",
    "##...######............###..##",
    "##..########...........###..##",
    "##..########.......#######..##",
    "##..###..###############....##",
    "##..########.......#######..##",
    "##...######............###..##",
    "##....####.............###..##",
    "##........#............###..##",
    "##.........#...###########..##",
    "##..........##############..##",
    "##.............##########...##",
    "##..........................##",
    "##############################",
    "##############################",
};

/* All the memory that the library needs; it keeps none of its own. */
struct lane {
    uint8_t image[PIXELS];
    uint16_t queue[PIXELS], components[PIXELS], holes[PIXELS];
    uint32_t records[MAX_COMPONENTS * DUHZAREK_RECORD];
};

static void take_crop(struct lane *lane)
{
    for (int i = 0; i < PIXELS; i++) {
        lane->image[i] = camera[i / WIDTH][i % WIDTH] == '#';
    }
}

/* Squares of mud all over the crop, with a pixel between them. */
static void spatter(struct lane *lane, int side)
{
    for (int i = 0; i < PIXELS; i++) {
        if (i % WIDTH % (side + 1) != 0 && i / WIDTH % (side + 1) != 0) {
            lane->image[i] = 1;
        }
    }
}

static void print_image(const struct lane *lane)
{
    for (int i = 0; i < PIXELS; i++) {
        putchar(lane->image[i] > 1 ? '?' : lane->image[i] == 1 ? '#' : '.');
        if (i % WIDTH == WIDTH - 1) {
            putchar('\n');
        }
    }
}

static void print_counts(const char *operation, const uint32_t counts[3])
{
    printf("%s: changed %u, used %u, contour %u\n", operation, counts[0], counts[1], counts[2]);
}

/* Only the first operation scans the image. Each of the others starts from the contour that the one before
 * left at the queue's front: counts[2] is its length. */
static uint8_t clean(struct lane *lane)
{
    uint8_t *image = lane->image;
    uint16_t *queue = lane->queue;
    uint32_t counts[3];
    uint8_t refusal = duhzarek_flood_fill(WIDTH, HEIGHT, image, PIXELS, queue, PIXELS, DUHZAREK_SCAN, 4,
                                          SLOT_X, SLOT_Y, counts);
    if (refusal != 0) {
        return refusal;
    }
    print_counts("fill the slot", counts);
    /* With border value 1 the frame stays at the border, where it is cleared next. */
    refusal = duhzarek_erode(WIDTH, HEIGHT, image, PIXELS, queue, PIXELS, counts[2], 8, 1, 1, counts);
    if (refusal != 0) {
        return refusal;
    }
    print_counts("erode the slivers", counts);
    refusal = duhzarek_clear_border(WIDTH, HEIGHT, image, PIXELS, queue, PIXELS, counts[2], 8, counts);
    if (refusal != 0) {
        return refusal;
    }
    print_counts("clear the frame", counts);
    refusal = duhzarek_dilate(WIDTH, HEIGHT, image, PIXELS, queue, PIXELS, counts[2], 8, 1, counts);
    if (refusal != 0) {
        return refusal;
    }
    print_counts("dilate again", counts);
    return 0;
}

/* The queue is the workspace here, so an operation that comes after has to scan again. */
static uint8_t label(struct lane *lane)
{
    const size_t records_len = MAX_COMPONENTS * DUHZAREK_RECORD;
    uint32_t counts[2];
    const uint8_t refusal = duhzarek_label_image(WIDTH, HEIGHT, lane->image, PIXELS, lane->queue, PIXELS, 8,
                                                 lane->components, PIXELS, lane->holes, PIXELS, lane->records,
                                                 records_len, counts);
    if (refusal != 0) {
        return refusal;
    }
    for (uint32_t p = 1; p <= counts[0]; p++) {
        const uint32_t *record = lane->records + DUHZAREK_RECORD * (p - 1);
        printf("component %u: box %u,%u to %u,%u, area %u, holes %u, depth %u\n", p, record[DUHZAREK_LEFT],
               record[DUHZAREK_TOP], record[DUHZAREK_RIGHT], record[DUHZAREK_BOTTOM], record[DUHZAREK_AREA],
               record[DUHZAREK_HOLES], duhzarek_depth(lane->records, records_len, p));
    }
    return 0;
}

static void handle_car(struct lane *lane)
{
    print_image(lane);
    uint8_t refusal = clean(lane);
    if (refusal == 0) {
        print_image(lane);
        refusal = label(lane);
    }
    if (refusal == 0) {
        puts("ready to be read");
    } else {
        printf("refused, %u: the car goes to the window\n", refusal);
    }
}

int main(void)
{
    static struct lane lane;
    puts("first car");
    take_crop(&lane);
    handle_car(&lane);

    puts("\nsecond car, with a glitch of the camera");
    take_crop(&lane);
    lane.image[12 * WIDTH + 16] = 0x40;
    handle_car(&lane);

    puts("\nthird car, with specks of mud");
    take_crop(&lane);
    spatter(&lane, 1);
    handle_car(&lane);

    puts("\nfourth car, covered with mud");
    memset(lane.image, 0, PIXELS);
    spatter(&lane, 3);
    handle_car(&lane);
    return 0;
}
