/*
 * The benchmark of unusual pictures: every operation on every picture, by the library and by an older build of it. The
 * results of the two are held against each other first. Then, round after round, each operation on each picture is
 * measured in pairs of samples, one of each build right after the other. A figure is the median over the pairs: a clock
 * that changes from pair to pair hits both builds alike.
 */
#define _POSIX_C_SOURCE 200809L
#include "operation.h"
#include "picture.h"

#include <stdatomic.h>
#include <stdbool.h>
#include <stdio.h>
#include <stdlib.h>
#include <string.h>
#include <time.h>

/* Of long calls a round takes fewer pairs, but one at least: all rounds together stay within four minutes. */
enum { ROUNDS = 16, PAIRS_A_ROUND = 4, PAIRS = ROUNDS * PAIRS_A_ROUND, MILLISECONDS_A_ROUND = 20 };
enum { MICROSECONDS_A_SAMPLE = 100, MAX_CALLS = 400, LIMIT = 120 /* percent */, WHERE = 128 };

enum { LIBRARY, BESIDE, BUILDS };

static uint8_t (*const builds[BUILDS])(const struct operation *operation, struct crop *crop) = {operate,
                                                                                                operate_beside};

static const struct operation operations[] = {
    {"scan", SCAN, 0, 0, 0, BY_SCAN},
    {"erode 4, 1 iteration", ERODE, 4, 1, 1, BY_SCAN},
    {"erode 4, 3 iterations", ERODE, 4, 1, 3, BY_SCAN},
    {"erode 4, 10 iterations", ERODE, 4, 1, 10, BY_SCAN},
    {"erode 8, 1 iteration", ERODE, 8, 1, 1, BY_SCAN},
    {"erode 8, 3 iterations", ERODE, 8, 1, 3, BY_SCAN},
    {"erode 8, 10 iterations", ERODE, 8, 1, 10, BY_SCAN},
    {"erode 8, 1 iteration, border 0", ERODE, 8, 0, 1, BY_SCAN},
    {"dilate 4, 1 iteration", DILATE, 4, 0, 1, BY_SCAN},
    {"dilate 4, 3 iterations", DILATE, 4, 0, 3, BY_SCAN},
    {"dilate 4, 10 iterations", DILATE, 4, 0, 10, BY_SCAN},
    {"dilate 8, 1 iteration", DILATE, 8, 0, 1, BY_SCAN},
    {"dilate 8, 3 iterations", DILATE, 8, 0, 3, BY_SCAN},
    {"dilate 8, 10 iterations", DILATE, 8, 0, 10, BY_SCAN},
    {"propagate 4, 3 iterations", PROPAGATE, 4, 0, 3, BY_SCAN},
    {"propagate 4, to the end", PROPAGATE, 4, 0, TO_THE_END, BY_SCAN},
    {"propagate 8, 3 iterations", PROPAGATE, 8, 0, 3, BY_SCAN},
    {"propagate 8, to the end", PROPAGATE, 8, 0, TO_THE_END, BY_SCAN},
    {"flood fill 4", FLOOD_FILL, 4, 0, 0, BY_SCAN},
    {"clear border 8", CLEAR_BORDER, 8, 0, 0, BY_SCAN},
    {"list of steps", STEPS, 0, 0, 0, BY_SCAN},
    {"erode 8, 1 iteration", ERODE, 8, 1, 1, FROM_CONTOUR},
    {"erode 8, 1 iteration", ERODE, 8, 1, 1, FROM_SHUFFLED},
    {"dilate 8, 1 iteration", DILATE, 8, 0, 1, FROM_CONTOUR},
    {"dilate 8, 1 iteration", DILATE, 8, 0, 1, FROM_SHUFFLED},
    {"propagate 8, 3 iterations", PROPAGATE, 8, 0, 3, FROM_CONTOUR},
    {"propagate 8, 3 iterations", PROPAGATE, 8, 0, 3, FROM_SHUFFLED},
};

static const char *const start_names[STARTS] = {"scan", "contour", "shuffled"};

static const struct {
    size_t width, height;
} sizes[] = {{128, 64}, {256, 256}};

enum { OPERATIONS = sizeof operations / sizeof operations[0], SIZES = sizeof sizes / sizeof sizes[0] };

static bool markdown;

static const char notes[] =
    "An entry is new / old, the time of the library divided by that of the older build; above 1 the library has\n"
    "become slower. Each call has a fresh copy of the picture and of the queue, made before the clock starts. 4 and\n"
    "8 are the connectivity.\n"
    "\n"
    "- start: by a scan, or from the contour handed in, in the order in which the build's own scan leaves it or\n"
    "  shuffled.\n"
    "- erode: the border value is 1 where nothing else is said.\n"
    "- propagate: the picture is the mask. It starts from the first pixel of a spiral or a serpentine, from one\n"
    "  object pixel in the middle of the other pictures, and on the plate as bench/run does.\n"
    "- flood fill: from the first background pixel.\n"
    "- list of steps: erode 8 (border value 0) and dilate 8, 1 iteration each, clear border 8, flood fill 4 of a hole\n"
    "  of the plate, and of a background pixel in the middle of the other pictures.\n"
    "- spiral, serpentine: a corridor one pixel wide, with gaps of one pixel. Upright, the spiral starts with a\n"
    "  column, and the serpentine consists of columns; lying, it is rows.\n";

/* ---- what is worked on */

/* How a call starts: the value handed in, and what the queue holds. */
struct beginning {
    size_t start;
    uint16_t queue[MAX_PIXELS];
};

static struct picture pictures[PICTURES];
static const struct picture *picture;
static struct crop crop;

/* Of the picture's image, and of its seed. */
static struct beginning beginnings[STARTS][BUILDS][2];

/* "erode 8, 1 iteration (scan), spiral upright, 128x64" */
static const char *where(const struct operation *operation, int number)
{
    static char text[WHERE];
    const char *const *name = picture_names[number];
    snprintf(text, sizeof text, "%s (%s), %s%s%s, %zux%zu", operation->name, start_names[operation->start], name[0],
             *name[1] == '\0' ? "" : " ", name[1], crop.width, crop.height);
    return text;
}

static _Noreturn void fail(const char *message, const char *place)
{
    fprintf(stderr, "patterns: %s: %s\n", message, place);
    exit(EXIT_FAILURE);
}

static void restore(const uint8_t *image, const struct beginning *beginning)
{
    memcpy(crop.image, image, crop.len);
    memcpy(crop.queue, beginning->queue, crop.len * sizeof crop.queue[0]);
    crop.start = beginning->start;
}

static void restore_for(const struct operation *operation, int build)
{
    bool seeded = operation->kind == PROPAGATE;
    restore(seeded ? picture->seed : picture->image, &beginnings[operation->start][build][seeded]);
}

static int compare_positions(const void *a, const void *b)
{
    uint16_t first = *(const uint16_t *)a, second = *(const uint16_t *)b;
    return (first > second) - (first < second);
}

/* Always the same order of the same positions, whatever the order before; xorshift. */
static void shuffle(uint16_t *positions, size_t len)
{
    uint32_t state = 2654435769U;
    qsort(positions, len, sizeof positions[0], compare_positions);
    for (size_t left = len; left > 1; left--) {
        state ^= state << 13;
        state ^= state >> 17;
        state ^= state << 5;
        size_t drawn = (state >> 8) % left;
        uint16_t position = positions[drawn];
        positions[drawn] = positions[left - 1];
        positions[left - 1] = position;
    }
}

/* A queue that a scan is to fill holds something else before. */
static void make_beginnings(int number, int build, bool seeded)
{
    struct beginning *by_scan = &beginnings[BY_SCAN][build][seeded];
    struct beginning *from_contour = &beginnings[FROM_CONTOUR][build][seeded];
    struct beginning *from_shuffled = &beginnings[FROM_SHUFFLED][build][seeded];
    by_scan->start = DUHZAREK_SCAN;
    memset(by_scan->queue, 0xA5, sizeof by_scan->queue);
    restore(seeded ? picture->seed : picture->image, by_scan);
    if (builds[build](&operations[0], &crop) != 0 || crop.counts[2] > crop.len)
        fail("the contour is not found", where(&operations[0], number));
    from_contour->start = crop.counts[2];
    memcpy(from_contour->queue, crop.queue, sizeof crop.queue);
    *from_shuffled = *from_contour;
    shuffle(from_shuffled->queue, from_shuffled->start);
}

static void load_picture(int number)
{
    picture = &pictures[number];
    crop.width = picture->width;
    crop.height = picture->height;
    crop.len = crop.width * crop.height;
    crop.ground = picture->ground;
    crop.hole = picture->hole;
    memcpy(crop.mask, picture->image, crop.len);
    for (int build = 0; build < BUILDS; build++) {
        make_beginnings(number, build, false);
        make_beginnings(number, build, true);
    }
}

static void make_pictures(int size)
{
    for (int p = 0; p < PICTURES; p++)
        picture_make(&pictures[p], sizes[size].width, sizes[size].height, p);
}

/* ---- checking */

/* What a call gave. The queue's front is told as a set: how often each position stands there. */
struct result {
    uint8_t answer;
    uint32_t counts[3];
    uint32_t reports[DUHZAREK_MAX_STEPS][3];
    uint8_t image[MAX_PIXELS];
    uint16_t listed[MAX_PIXELS];
    bool zeros_behind;
    bool blank_rows_right; /* those of a scan, or they are not told */
};

static uint32_t count_blank_rows(void)
{
    uint32_t count = 0;
    for (size_t y = 0; y < crop.height; y++)
        count += memchr(crop.image + y * crop.width, 1, crop.width) == NULL;
    return count;
}

static void run_and_tell(const struct operation *operation, int build, struct result *result)
{
    memset(result, 0, sizeof *result);
    memset(crop.counts, 0, sizeof crop.counts);
    memset(crop.reports, 0, sizeof crop.reports);
    restore_for(operation, build);
    result->answer = builds[build](operation, &crop);
    memcpy(result->counts, crop.counts, sizeof crop.counts);
    memcpy(result->reports, crop.reports, sizeof crop.reports);
    memcpy(result->image, crop.image, crop.len);
    result->zeros_behind = true;
    result->blank_rows_right =
        operation->kind != SCAN || crop.blank_rows == UNTOLD || crop.blank_rows == count_blank_rows();
    uint32_t contour_len = crop.counts[operation->kind == STEPS ? 1 : 2];
    for (size_t i = 0; i < crop.len; i++) {
        if (i < contour_len)
            result->listed[crop.queue[i]]++;
        else if (crop.queue[i] != 0)
            result->zeros_behind = false;
    }
}

/* What differs, or NULL. */
static const char *difference(const struct result *one, const struct result *other)
{
    if (one->answer != other->answer)
        return "the two builds answer differently";
    if (memcmp(one->counts, other->counts, sizeof one->counts) != 0)
        return "the counts of the two builds differ";
    if (memcmp(one->reports, other->reports, sizeof one->reports) != 0)
        return "the reports of the two builds differ";
    if (memcmp(one->image, other->image, sizeof one->image) != 0)
        return "the images of the two builds differ";
    if (memcmp(one->listed, other->listed, sizeof one->listed) != 0)
        return "the contours of the two builds differ";
    if (one->zeros_behind != other->zeros_behind)
        return "one of the two builds leaves no zeros behind the contour";
    if (!one->blank_rows_right || !other->blank_rows_right)
        return "one of the two builds counts other blank rows than the picture has";
    return NULL;
}

static void check(const struct operation *operation, int number)
{
    static struct result results[BUILDS];
    for (int build = 0; build < BUILDS; build++)
        run_and_tell(operation, build, &results[build]);
    const char *found = difference(&results[LIBRARY], &results[BESIDE]);
    if (found == NULL && results[LIBRARY].answer != 0)
        found = "both builds refuse the call";
    if (found != NULL)
        fail(found, where(operation, number));
}

static void check_size(int size)
{
    make_pictures(size);
    for (int p = 0; p < PICTURES; p++) {
        load_picture(p);
        for (int o = 0; o < OPERATIONS; o++)
            check(&operations[o], p);
    }
}

/* ---- measuring */

/* Of an operation on a picture; times are microseconds a call. */
static struct cell {
    int pairs;
    double ratios[PAIRS], older_times[PAIRS];
} cells[OPERATIONS][PICTURES];

static double now(void)
{
    struct timespec time;
    clock_gettime(CLOCK_MONOTONIC, &time);
    return (double)time.tv_sec * 1e6 + (double)time.tv_nsec / 1e3;
}

/* The clock starts once all that was restored has reached the cache. */
static double timed_call(const struct operation *operation, int build)
{
    restore_for(operation, build);
    atomic_thread_fence(memory_order_seq_cst);
    double before = now();
    builds[build](operation, &crop);
    return now() - before;
}

/* A sample of each build. The two take turns call by call: a build that follows itself is faster, since the processor
 * remembers its branches. */
static void take_samples(const struct operation *operation, int calls, double times[BUILDS])
{
    memset(times, 0, BUILDS * sizeof times[0]);
    for (int i = 0; i < calls; i++) {
        for (int build = 0; build < BUILDS; build++)
            times[build] += timed_call(operation, build) / calls;
    }
}

/* How often a sample repeats the call. */
static int calls_a_sample(const struct operation *operation)
{
    double library = timed_call(operation, LIBRARY), beside = timed_call(operation, BESIDE);
    double calls = 1 + MICROSECONDS_A_SAMPLE / (library < beside ? library : beside);
    return calls < MAX_CALLS ? (int)calls : MAX_CALLS;
}

static void measure_cell(const struct operation *operation, struct cell *cell)
{
    double times[BUILDS], end = now() + MILLISECONDS_A_ROUND * 1e3;
    int calls = calls_a_sample(operation);
    for (int i = 0; i < PAIRS_A_ROUND && (i == 0 || now() < end); i++) {
        take_samples(operation, calls, times);
        cell->ratios[cell->pairs] = times[LIBRARY] / times[BESIDE];
        cell->older_times[cell->pairs] = times[BESIDE];
        cell->pairs++;
    }
}

static void measure_size(void)
{
    memset(cells, 0, sizeof cells);
    for (int round = 0; round < ROUNDS; round++) {
        for (int p = 0; p < PICTURES; p++) {
            load_picture(p);
            for (int o = 0; o < OPERATIONS; o++)
                measure_cell(&operations[o], &cells[o][p]);
        }
    }
}

static int compare_numbers(const void *a, const void *b)
{
    double first = *(const double *)a, second = *(const double *)b;
    return (first > second) - (first < second);
}

static double median(const double *numbers, int count)
{
    double sorted[PAIRS];
    memcpy(sorted, numbers, (size_t)count * sizeof sorted[0]);
    qsort(sorted, (size_t)count, sizeof sorted[0], compare_numbers);
    return (sorted[(count - 1) / 2] + sorted[count / 2]) / 2;
}

/* ---- tables */

static struct {
    double ratio, older_time;
    char where[WHERE];
    int cells, above;
} largest;

/* What is above the limit is told by the two decimals that are printed. */
static void count_ratio(double ratio, int operation, int number)
{
    const struct cell *cell = &cells[operation][number];
    largest.cells++;
    largest.above += (int)(100 * ratio + 0.5) > LIMIT;
    if (ratio <= largest.ratio)
        return;
    largest.ratio = ratio;
    largest.older_time = median(cell->older_times, cell->pairs);
    snprintf(largest.where, sizeof largest.where, "%s", where(&operations[operation], number));
}

static void print_markdown_head(void)
{
    printf("| operation | start |");
    for (int p = 0; p < PICTURES; p++)
        printf(" %s%s%s |", picture_names[p][0], *picture_names[p][1] == '\0' ? "" : " ", picture_names[p][1]);
    printf("\n|---|---|");
    for (int p = 0; p < PICTURES; p++)
        printf("---:|");
    printf("\n");
}

static void print_head(void)
{
    for (int line = 0; line < 2; line++) {
        printf("%-31s%-9s", line == 0 ? "operation" : "", line == 0 ? "start" : "");
        for (int p = 0; p < PICTURES; p++)
            printf(" %10s", picture_names[p][line]);
        printf("\n");
    }
}

static void print_row(int operation)
{
    printf(markdown ? "| %s | %s |" : "%-31s%-9s", operations[operation].name,
           start_names[operations[operation].start]);
    for (int p = 0; p < PICTURES; p++) {
        double ratio = median(cells[operation][p].ratios, cells[operation][p].pairs);
        printf(markdown ? " %.2f |" : " %10.2f", ratio);
        count_ratio(ratio, operation, p);
    }
    printf("\n");
}

static void print_size(void)
{
    printf("%s%zux%zu\n\n", markdown ? "## " : "", crop.width, crop.height);
    if (markdown)
        print_markdown_head();
    else
        print_head();
    for (int o = 0; o < OPERATIONS; o++)
        print_row(o);
    printf("\n");
    fflush(stdout);
}

int main(int argc, char **argv)
{
    markdown = argc == 2 && strcmp(argv[1], "--markdown") == 0;
    if (argc > 1 && !markdown) {
        fprintf(stderr, "patterns: unknown argument %s; the only one known is --markdown\n", argv[1]);
        return 2;
    }
    for (int s = 0; s < SIZES; s++)
        check_size(s);
    for (int s = 0; s < SIZES; s++) {
        make_pictures(s);
        measure_size();
        print_size();
    }
    printf("%s\n", notes);
    printf("Largest new / old: %.2f, %s (old: %.2f microseconds a call); %d of %d are above %.2f.\n", largest.ratio,
           largest.where, largest.older_time, largest.above, largest.cells, LIMIT / 100.0);
    return 0;
}
