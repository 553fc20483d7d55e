/*
 * stack.c: measures the stack that calls of the library take and holds it against what duhzarek.h says.
 *
 *     stack
 *
 * Each call runs on a painted stack of its own; the deepest byte whose paint is gone tells how far it went.
 * What an empty call takes in the same way is not counted. The lane's listing is made of some jobs. Every other
 * function is called at 128x64 and at 256x256, on a plate-like and a serpentine picture, by a scan and from a contour,
 * with either connectivity and border value, with one iteration and to the end; the most that it takes counts.
 *
 * The status is 1 if functions take more than duhzarek.h says, or less than three quarters of it, or if one answers
 * wrongly; it is 2 if the measuring itself has failed.
 */
#define _XOPEN_SOURCE 700 /* for ucontext.h */

#include "duhzarek.h"

#include <stdbool.h>
#include <stdio.h>
#include <stdlib.h>
#include <string.h>
#include <ucontext.h>

enum { STACK = 524288, PAINT = 0xA5 };

/* ---- the painted stack */

static _Alignas(64) uint8_t stack[STACK];

static void call_nothing(void)
{
}

static _Noreturn void give_up(const char *problem)
{
    fprintf(stderr, "stack: %s\n", problem);
    exit(2);
}

static void run_on_stack(void (*call)(void))
{
    ucontext_t here, there;
    if (getcontext(&there) != 0)
        give_up("getcontext failed");
    there.uc_stack.ss_sp = stack;
    there.uc_stack.ss_size = STACK;
    there.uc_link = &here;
    makecontext(&there, call, 0);
    if (swapcontext(&here, &there) != 0)
        give_up("swapcontext failed");
}

/* The bytes from the stack's upper end down to the deepest one whose paint is gone. */
static size_t bytes_taken(void (*call)(void))
{
    size_t painted = 0;
    memset(stack, PAINT, STACK);
    run_on_stack(call);
    while (painted < STACK && stack[painted] == PAINT)
        painted++;
    if (painted == 0)
        give_up("a call went down to the end of the painted stack");
    return STACK - painted;
}

/* ---- pictures */

static bool is_full(size_t x, size_t y, size_t width, size_t height)
{
    return x < width && y < height;
}

/* Blocks of 7 by 7, each with a hole in its middle. */
static bool is_block(size_t x, size_t y, size_t width, size_t height)
{
    (void)width, (void)height;
    return x % 8 < 7 && y % 8 < 7 && !(x % 8 == 3 && y % 8 == 3);
}

static size_t smaller(size_t one, size_t other)
{
    return one < other ? one : other;
}

static bool is_nested_ring(size_t x, size_t y, size_t width, size_t height)
{
    return smaller(smaller(x, width - 1 - x), smaller(y, height - 1 - y)) % 2 == 0;
}

static bool is_dot(size_t x, size_t y, size_t width, size_t height)
{
    (void)width, (void)height;
    return x % 2 == 0 && y % 2 == 0;
}

/* Blocks in a frame. */
static bool is_plate(size_t x, size_t y, size_t width, size_t height)
{
    size_t depth = smaller(smaller(x, width - 1 - x), smaller(y, height - 1 - y));
    return depth < 3 || is_block(x, y, width, height);
}

/* Every other column, and the links between them, below and above in turn. */
static bool is_serpentine(size_t x, size_t y, size_t width, size_t height)
{
    if (x % 2 == 0)
        return true;
    return x + 1 < width && y == (x % 4 == 1 ? height - 1 : 0);
}

typedef bool is_object_function(size_t x, size_t y, size_t width, size_t height);

static void draw(uint8_t *image, is_object_function *is_object, size_t width, size_t height)
{
    for (size_t at = 0; at < width * height; at++)
        image[at] = is_object(at % width, at / width, width, height);
}

/* ---- jobs to list */

/* They clear the blocks at the border, close the hole of every other block and open it again. */
#define FIVE_STEPS \
    DUHZAREK_CLEAR_BORDER(8), DUHZAREK_FLOOD_FILL(4, 11, 11), DUHZAREK_ERODE(4, 0, 1), \
    DUHZAREK_DILATE(8, 1), DUHZAREK_PROPAGATE(8, 1)

static const uint8_t two_steps[] = {DUHZAREK_ERODE(8, 0, 1), DUHZAREK_DILATE(4, 1)};
static const uint8_t most_steps[] = {FIVE_STEPS, FIVE_STEPS, FIVE_STEPS, FIVE_STEPS, FIVE_STEPS, FIVE_STEPS,
                                     DUHZAREK_ERODE_BY_SIDES(8, DUHZAREK_LEFT_SIDE, 1), DUHZAREK_DILATE(4, 1)};

struct job {
    size_t width, height;
    is_object_function *is_object; /* image and mask */
    size_t step_count, steps_len;
    const uint8_t *steps;
    const char *line; /* one that its listing must have */
};

static const struct job jobs[] = {
    {5, 5, is_full, 2, sizeof two_steps, two_steps, "parts 1 0\n"},
    {128, 64, is_block, DUHZAREK_MAX_STEPS, sizeof most_steps, most_steps, "parts 105 105\n"},
    {90, 91, is_nested_ring, 0, 0, two_steps, "part 23 44 44 6 44 44 45 46 0 22 22\n"},
    {63, 63, is_dot, 0, 0, two_steps, "parts 1024 0\n"},
    {81, 49, is_dot, 0, 0, two_steps, "refused 11\n"},
};

enum { JOBS = sizeof jobs / sizeof *jobs };

static struct {
    uint8_t bytes[DUHZAREK_MAX_JOB];
    size_t len;
} written;

static void write_job(size_t k)
{
    static uint8_t image[DUHZAREK_MAX_PIXELS];
    const struct job *job = &jobs[k];
    size_t pixels = job->width * job->height;
    draw(image, job->is_object, job->width, job->height);
    written.len = DUHZAREK_JOB_LENGTH(job->width, job->height, job->steps_len);
    if (duhzarek_write_job(job->width, job->height, job->step_count, job->steps, job->steps_len, image, pixels,
                           image, pixels, written.bytes, written.len) != 0)
        give_up("a job cannot be written");
}

static char listing[DUHZAREK_MAX_LISTING + 1];
static size_t listing_len;

static void list_job(void)
{
    listing_len = duhzarek_lane_listing(written.bytes, written.len, (uint8_t *)listing);
}

/* A job refused by mistake could take less than it should. */
static bool check_listing(size_t k)
{
    listing[listing_len] = '\0';
    if (strstr(listing, jobs[k].line) != NULL)
        return true;
    fprintf(stderr, "the listing of the job of %zu by %zu has no line %s", jobs[k].width, jobs[k].height,
            jobs[k].line);
    return false;
}

/* ---- calls of the other functions */

enum { SETTINGS = 64, MAX_WORDS = DUHZAREK_MAX_SIDE * DUHZAREK_ROW_WORDS(DUHZAREK_MAX_SIDE) };

/* An image with its contour. */
struct lent {
    uint8_t image[DUHZAREK_MAX_PIXELS];
    uint16_t queue[DUHZAREK_MAX_PIXELS];
    size_t contour_len, start;
};

/* What a call is made with. The mask, the words, the records and the job are of the picture. The seed is its first
 * pixel, which is object. */
static bool on_plate, by_scan;
static size_t width, height, len, words_len;
static uint8_t connectivity, border_value, sides;
static uint16_t iterations;
static struct lent picture, seed;
static uint8_t mask[DUHZAREK_MAX_PIXELS];
static uint64_t words[MAX_WORDS];
static uint16_t components[DUHZAREK_MAX_PIXELS], holes[DUHZAREK_MAX_PIXELS];
static uint32_t counts[3], scanned_len, blank_rows, head[4], reports[DUHZAREK_MAX_STEPS][3];
static uint32_t records[DUHZAREK_RECORD * DUHZAREK_MAX_PIXELS], component_count;

enum { RECORDS_LEN = sizeof records / sizeof *records };

/* What a call answers, 0 where it should. */
static uint8_t answer;

static void erode_words(void)
{
    answer = duhzarek_erode_words(width, height, words, words_len, connectivity, border_value, iterations, counts);
}

static void erode_words_by_sides(void)
{
    answer = duhzarek_erode_words_by_sides(width, height, words, words_len, connectivity, sides, iterations, counts);
}

static void dilate_words(void)
{
    answer = duhzarek_dilate_words(width, height, words, words_len, connectivity, iterations, counts);
}

static void pack_words(void)
{
    answer = duhzarek_pack_words(width, height, picture.image, len, words, words_len);
}

static void unpack_words(void)
{
    answer = duhzarek_unpack_words(width, height, words, words_len, picture.image, len);
}

static void erode(void)
{
    answer = duhzarek_erode(width, height, picture.image, len, picture.queue, len, picture.start, connectivity,
                            border_value, iterations, counts);
}

static void erode_by_sides(void)
{
    answer = duhzarek_erode_by_sides(width, height, picture.image, len, picture.queue, len, picture.start, connectivity,
                                     sides, iterations, counts);
}

static void dilate(void)
{
    answer = duhzarek_dilate(width, height, picture.image, len, picture.queue, len, picture.start, connectivity,
                             iterations, counts);
}

static void propagate(void)
{
    answer = duhzarek_propagate(width, height, seed.image, len, seed.queue, len, seed.start, connectivity, iterations,
                                mask, len, counts);
}

/* From between two blocks, or two columns of the serpentine. */
static void flood_fill(void)
{
    answer = duhzarek_flood_fill(width, height, picture.image, len, picture.queue, len, picture.start, connectivity,
                                 7, 7, counts);
}

static void clear_border(void)
{
    answer = duhzarek_clear_border(width, height, picture.image, len, picture.queue, len, picture.start, connectivity,
                                   counts);
}

static void scan_image(void)
{
    answer = duhzarek_scan_image(width, height, picture.image, len, picture.queue, len, &scanned_len, &blank_rows);
}

static void contour(void)
{
    answer = duhzarek_contour(picture.queue, len, picture.contour_len) != picture.contour_len;
}

static void label_image(void)
{
    answer = duhzarek_label_image(width, height, picture.image, len, picture.queue, len, connectivity, components, len,
                                  holes, len, records, RECORDS_LEN, counts);
}

static void widen_map(void)
{
    answer = duhzarek_widen_map(width, height, picture.image, len, components, len);
}

/* The last block is in the frame; the serpentine is in nothing. */
static void depth(void)
{
    answer = duhzarek_depth(records, RECORDS_LEN, component_count) != on_plate;
}

static void read_job(void)
{
    answer = duhzarek_read_job(written.bytes, written.len, head);
}

static void unpack_job(void)
{
    answer = duhzarek_unpack_job(written.bytes, written.len, picture.image, len, mask, len);
}

static void write_picture(void)
{
    answer = duhzarek_write_job(width, height, DUHZAREK_MAX_STEPS, most_steps, sizeof most_steps, picture.image, len,
                                mask, len, written.bytes, written.len);
}

static void run_steps(void)
{
    answer = duhzarek_run_steps(width, height, DUHZAREK_MAX_STEPS, most_steps, sizeof most_steps, picture.image, len,
                                mask, len, picture.queue, len, counts, reports);
}

static void run_job(void)
{
    answer = duhzarek_run_job(written.bytes, written.len, picture.image, len, mask, len, picture.queue, len, counts,
                              reports);
}

/* ---- what they are called with */

static void choose(size_t k)
{
    width = k % 2 == 0 ? 128 : 256;
    height = k % 2 == 0 ? 64 : 256;
    on_plate = k / 2 % 2 == 0;
    by_scan = k / 4 % 2 == 0;
    connectivity = k / 8 % 2 == 0 ? 4 : 8;
    border_value = k / 16 % 2 == 0 ? 0 : 1;
    sides = border_value == 0 ? DUHZAREK_LEFT_SIDE : DUHZAREK_ALL_SIDES;
    iterations = k / 32 % 2 == 0 ? 1 : 65535;
    len = width * height;
    words_len = height * DUHZAREK_ROW_WORDS(width);
    written.len = DUHZAREK_JOB_LENGTH(width, height, sizeof most_steps);
}

static void expect_done(void)
{
    if (answer != 0)
        give_up("a call cannot be set up");
}

static void find_contour(struct lent *lent)
{
    answer = duhzarek_scan_image(width, height, lent->image, len, lent->queue, len, &scanned_len, &blank_rows);
    expect_done();
    lent->contour_len = scanned_len;
    lent->start = by_scan ? DUHZAREK_SCAN : lent->contour_len;
}

static void set_up(size_t k)
{
    choose(k);
    draw(picture.image, on_plate ? is_plate : is_serpentine, width, height);
    memcpy(mask, picture.image, len);
    memset(seed.image, 0, len);
    seed.image[0] = 1;
    pack_words();
    expect_done();
    write_picture();
    expect_done();
    label_image();
    expect_done();
    component_count = counts[0];
    find_contour(&picture);
    find_contour(&seed);
}

/* A call refused by mistake could take less than it should. */
static bool check_answer(size_t k)
{
    if (answer == 0)
        return true;
    fprintf(stderr, "case %zu, a %s of %zu by %zu: answer %d\n", k, on_plate ? "plate" : "serpentine", width, height,
            answer);
    return false;
}

/* ---- what is measured */

/* The cases in which a function is called. */
struct cases {
    size_t count;
    void (*prepare)(size_t k);
    bool (*check)(size_t k);
};

static const struct cases listings = {JOBS, write_job, check_listing}, settings = {SETTINGS, set_up, check_answer};

static const struct {
    const char *name;
    void (*call)(void);
    const struct cases *cases;
} functions[] = {
    {"duhzarek_lane_listing", list_job, &listings},
    {"duhzarek_erode_words", erode_words, &settings},
    {"duhzarek_erode_words_by_sides", erode_words_by_sides, &settings},
    {"duhzarek_dilate_words", dilate_words, &settings},
    {"duhzarek_pack_words", pack_words, &settings},
    {"duhzarek_unpack_words", unpack_words, &settings},
    {"duhzarek_erode", erode, &settings},
    {"duhzarek_erode_by_sides", erode_by_sides, &settings},
    {"duhzarek_dilate", dilate, &settings},
    {"duhzarek_propagate", propagate, &settings},
    {"duhzarek_flood_fill", flood_fill, &settings},
    {"duhzarek_clear_border", clear_border, &settings},
    {"duhzarek_scan_image", scan_image, &settings},
    {"duhzarek_contour", contour, &settings},
    {"duhzarek_label_image", label_image, &settings},
    {"duhzarek_widen_map", widen_map, &settings},
    {"duhzarek_depth", depth, &settings},
    {"duhzarek_read_job", read_job, &settings},
    {"duhzarek_unpack_job", unpack_job, &settings},
    {"duhzarek_write_job", write_picture, &settings},
    {"duhzarek_run_steps", run_steps, &settings},
    {"duhzarek_run_job", run_job, &settings},
};

/* Where the listing stands above, and the operations on packed rows, from WORDS up to WORDS_END. */
enum { FUNCTIONS = sizeof functions / sizeof *functions, LISTING = 0, WORDS = 1, WORDS_END = 4 };

/* Two frames: the words of the rows, and an entry round every side. */
enum { FRAMES = 2 * (DUHZAREK_ROW_WORDS(DUHZAREK_MAX_SIDE) + 2) * (DUHZAREK_MAX_SIDE + 2) * sizeof words[0] };

/* What duhzarek.h says of the functions from `first` up to `end`. */
struct row {
    const char *name;
    size_t first, end;
    size_t limit;
    size_t arrays; /* bytes of the arrays that one of them keeps on the stack */
};

static const struct row rows[] = {
    /* image, mask, queue and both maps; records */
    {"DUHZAREK_LISTING_STACK", LISTING, WORDS, DUHZAREK_LISTING_STACK,
     DUHZAREK_LANE_PIXELS * (1 + 1 + 2 + 2 + 2) + DUHZAREK_LANE_RECORDS * DUHZAREK_RECORD * 4},
    {"DUHZAREK_WORDS_STACK", WORDS, WORDS_END, DUHZAREK_WORDS_STACK, FRAMES},
    {"DUHZAREK_STACK", WORDS, FUNCTIONS, DUHZAREK_STACK, FRAMES},
};

/* The first call of a function is not measured, since the dynamic linker may have its part in it. */
static size_t most_taken(size_t f)
{
    const struct cases *cases = functions[f].cases;
    size_t empty = bytes_taken(call_nothing), most = 0;
    cases->prepare(0);
    functions[f].call();
    for (size_t k = 0; k < cases->count; k++) {
        cases->prepare(k);
        size_t taken = bytes_taken(functions[f].call) - empty;
        if (!cases->check(k)) {
            fprintf(stderr, "%s answers wrongly\n", functions[f].name);
            exit(1);
        }
        most = taken > most ? taken : most;
    }
    return most;
}

/* Numbers here are below 1,000,000. */
static void print_grouped(size_t number)
{
    if (number >= 1000)
        printf("%zu,%03zu", number / 1000, number % 1000);
    else
        printf("%zu", number);
}

static void print_function(size_t f, size_t taken)
{
    printf("%s: ", functions[f].name);
    print_grouped(taken);
    printf(" bytes of stack\n");
}

static void print_row(const struct row *row, size_t most)
{
    printf("%s: ", row->name);
    print_grouped(most);
    printf(" bytes of stack, at most ");
    print_grouped(row->limit);
    printf(" allowed\n");
}

static int judge(const struct row *row, const size_t taken[FUNCTIONS])
{
    size_t most = 0;
    for (size_t f = row->first; f < row->end; f++)
        most = taken[f] > most ? taken[f] : most;
    print_row(row, most);
    if (most < row->arrays) {
        fprintf(stderr, "%s: arrays alone take more: it was not measured rightly\n", row->name);
        return 2;
    }
    if (most > row->limit || 3 * row->limit > 4 * most) {
        fprintf(stderr, "%s: duhzarek.h says %s\n", row->name,
                most > row->limit ? "too little" : "over a third more than is taken");
        return 1;
    }
    return 0;
}

int main(void)
{
    size_t taken[FUNCTIONS];
    int status = 0;
    for (size_t f = 0; f < FUNCTIONS; f++) {
        taken[f] = most_taken(f);
        print_function(f, taken[f]);
    }
    for (size_t k = 0; k < sizeof rows / sizeof *rows; k++) {
        int judged = judge(&rows[k], taken);
        status = judged > status ? judged : status;
    }
    return status;
}
