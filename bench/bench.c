/*
 * The benchmarks: every task on 64 plates of each size, by every competitor in turn. The results are held
 * against each other first. Then, round after round, each plate goes to every competitor once, so that what
 * else the machine does hits all alike. A time is the mean over the plates of the median over the rounds:
 * the median of whole sums would hold an interruption against slow competitors more than against fast ones.
 */
#define _POSIX_C_SOURCE 200809L
#include "competitor.h"

#include <stdatomic.h>
#include <stdbool.h>
#include <stdio.h>
#include <stdlib.h>
#include <string.h>
#include <sys/resource.h>
#include <time.h>

enum { MIN_ROUNDS = 5, MAX_ROUNDS = 200, MAX_TRIES = 3, SECONDS_A_SIZE = 35, CELL = 24, MAX_CELLS = 9 };

/* Absent ones are NULL. The library stands first; an older build of it, where there is one, last. */
static const struct competitor *const competitors[] = {
    &library,
    &straightforward,
#ifdef HAVE_OPENCV
    &opencv,
#else
    NULL,
#endif
#ifdef HAVE_LEPTONICA
    &leptonica,
#else
    NULL,
#endif
#ifdef HAVE_BESIDE
    &beside,
#endif
};

static const char *const names[] = {"library", "straightforward", "OpenCV", "Leptonica", "beside"};
static const char *const ratio_names[] = {NULL, "straightf./lib", "OpenCV/lib", "Leptonica/lib", "library/beside"};

enum { COMPETITORS = sizeof competitors / sizeof competitors[0], LIBRARY = 0, STRAIGHTFORWARD = 1, BESIDE = 4 };
enum { HAS_BESIDE = BESIDE < COMPETITORS };

static const struct task tasks[] = {
    {"erode 4, 1 iteration", ERODE, 4, 1, BY_SCAN},
    {"erode 4, 3 iterations", ERODE, 4, 3, BY_SCAN},
    {"erode 4, 10 iterations", ERODE, 4, 10, BY_SCAN},
    {"erode 8, 1 iteration", ERODE, 8, 1, BY_SCAN},
    {"erode 8, 3 iterations", ERODE, 8, 3, BY_SCAN},
    {"erode 8, 10 iterations", ERODE, 8, 10, BY_SCAN},
    {"dilate 4, 1 iteration", DILATE, 4, 1, BY_SCAN},
    {"dilate 4, 3 iterations", DILATE, 4, 3, BY_SCAN},
    {"dilate 8, 1 iteration", DILATE, 8, 1, BY_SCAN},
    {"dilate 8, 3 iterations", DILATE, 8, 3, BY_SCAN},
    {"propagate 8, 3 iterations", PROPAGATE, 8, 3, BY_SCAN},
    {"propagate 8, to the end", PROPAGATE, 8, TO_THE_END, BY_SCAN},
    {"flood fill 4, a hole", FLOOD_FILL_HOLE, 4, 0, BY_SCAN},
    {"flood fill 4, the ground", FLOOD_FILL_GROUND, 4, 0, BY_SCAN},
    {"clear border 8", CLEAR_BORDER, 8, 0, BY_SCAN},
    {"scan", SCAN, 4, 0, BY_SCAN},
    {"scan, half the rows blank", SCAN_BLANKED, 4, 0, BY_SCAN},
    {"label 8", LABEL, 8, 0, BY_SCAN},
    {"label 8, images, boxes", LABEL_IMAGES, 8, 0, BY_SCAN},
    {"label 8, boxes alone", LABEL_BOXES, 8, 0, BY_SCAN},
    {"label 8, mud", LABEL_MUD, 8, 0, BY_SCAN},
    {"label 4", LABEL, 4, 0, BY_SCAN},
    {"label 4, mud", LABEL_MUD, 4, 0, BY_SCAN},
    {"job, single calls", JOB_CALLS, 8, 0, BY_SCAN},
    {"job, list of steps", JOB_STEPS, 8, 0, BY_SCAN},
    {"erode 4, 10, stopping", ERODE_STOPPING, 4, 10, BY_SCAN},
    {"erode 4, 1 iteration", ERODE, 4, 1, FROM_CONTOUR},
    {"erode 4, 3 iterations", ERODE, 4, 3, FROM_CONTOUR},
    {"erode 4, 10 iterations", ERODE, 4, 10, FROM_CONTOUR},
    {"erode 8, 1 iteration", ERODE, 8, 1, FROM_CONTOUR},
    {"dilate 4, 1 iteration", DILATE, 4, 1, FROM_CONTOUR},
    {"dilate 8, 1 iteration", DILATE, 8, 1, FROM_CONTOUR},
    {"flood fill 4, a hole", FLOOD_FILL_HOLE, 4, 0, FROM_CONTOUR},
    {"flood fill 4, the ground", FLOOD_FILL_GROUND, 4, 0, FROM_CONTOUR},
    {"clear border 8", CLEAR_BORDER, 8, 0, FROM_CONTOUR},
    /* From these three the check of a contour is told: see the notes. */
    {"no iteration", ERODE, 4, 0, FROM_CONTOUR},
    {"no iteration, a long queue", ERODE, 4, 0, IN_LONG_QUEUE},
    {"refused once the buffers are judged", REFUSED, 0, 0, FROM_CONTOUR},
    {"packed erode 8, 1 iteration", ERODE, 8, 1, PACKED},
    {"packed erode 8, 3 iterations", ERODE, 8, 3, PACKED},
    {"packed erode 8, 10 iterations", ERODE, 8, 10, PACKED},
    {"packed erode 4, 1 iteration", ERODE, 4, 1, PACKED},
    {"packed erode 4, 3 iterations", ERODE, 4, 3, PACKED},
    {"packed erode 4, 10 iterations", ERODE, 4, 10, PACKED},
    {"packed dilate 8, 1 iteration", DILATE, 8, 1, PACKED},
    {"packed dilate 8, 3 iterations", DILATE, 8, 3, PACKED},
    {"packed dilate 8, 10 iterations", DILATE, 8, 10, PACKED},
    {"packed dilate 4, 1 iteration", DILATE, 4, 1, PACKED},
    {"packed dilate 4, 3 iterations", DILATE, 4, 3, PACKED},
    {"packed dilate 4, 10 iterations", DILATE, 4, 10, PACKED},
    {"pack", PACK, 0, 0, PACKED},
    {"unpack", UNPACK, 0, 0, PACKED},
};

enum { TASKS = sizeof tasks / sizeof tasks[0] };

static const struct {
    int width, height;
} sizes[] = {{128, 64}, {200, 48}, {256, 256}};

enum { SIZES = sizeof sizes / sizeof sizes[0] };

static struct plate plates[PLATES];
static double times[TASKS][COMPETITORS][PLATES][MAX_ROUNDS];
static int rounds;
static bool markdown;

static const char notes[] =
    "lib is the library; a ratio above 1 means that the library is faster. Each call has a fresh copy of\n"
    "the plate, made before the clock starts. The library starts each operation by a scan where nothing\n"
    "else is said. 4 and 8 are the connectivity; outside the plate is background.\n"
    "\n"
    "- stopping: the straightforward one stops when an iteration changes nothing. Elsewhere it does as many\n"
    "  as asked, as OpenCV and Leptonica do; the library always stops.\n"
    "- propagate: from the object pixels on the middle line of each row of characters; the plate is the\n"
    "  mask. To the end, the others flood or reconstruct; they do not iterate.\n"
    "- scan: the others list the positions of the contour too; the library counts the blank rows besides.\n"
    "- half the rows blank: as scan, of the plate with the rows above and below its middle half cleared.\n"
    "- label: map, boxes and areas; the library labels holes too and tells which component encloses which.\n"
    "  Leptonica: pixConnComp, pixaCountPixels and a map painted as pixConnCompTransform does; images and\n"
    "  boxes are pixConnComp alone, boxes alone are pixConnCompBB. The others do the same in all three rows.\n"
    "- mud: as label, of the plate with hundreds of specks, at 256x256 thousands. An older build whose maps\n"
    "  have bytes takes no part.\n"
    "- job: erode 8 and dilate 8, 1 iteration each, clear border 8, flood fill 4 of a hole, label 8. By\n"
    "  single calls the contour is handed on from call to call.\n"
    "- check: the check of the contour handed in. Of an erosion or a dilation it is what a call from a contour\n"
    "  takes beyond one by a scan, since both go on words and do the same but for it. Of the others it is the\n"
    "  time of an erosion from a right contour with no iteration less that of a call refused once the buffers\n"
    "  are judged and that of the zeros written behind the contour; how long these take is told by a queue\n"
    "  with twice as many entries behind it. Its share is that of the time from a contour.\n"
    "- packed: the library works on rows of 64-bit words and tells changed, used and area; the others do the\n"
    "  same as in the first table and tell nothing, Leptonica on images of a bit a pixel as everywhere, OpenCV\n"
    "  on bytes.\n"
    "- pack, unpack: bytes into a bit a pixel, judged first, and back. Leptonica: pixThresholdToBinary, which\n"
    "  makes a new image, and pixConvert1To8 into one that is there.\n";

void fail(const char *message)
{
    fprintf(stderr, "bench: %s\n", message);
    exit(EXIT_FAILURE);
}

const uint8_t *image_of(const struct task *task, const struct plate *plate)
{
    switch (task->kind) {
    case PROPAGATE:
        return plate->seed;
    case SCAN_BLANKED:
        return plate->blanked;
    case LABEL_MUD:
        return plate->muddy;
    default:
        return plate->image;
    }
}

struct place place_of(const struct task *task, const struct plate *plate)
{
    return task->kind == FLOOD_FILL_HOLE ? plate->hole : plate->ground;
}

void order_components(struct result *result, int len)
{
    uint16_t new_label[MAX_COMPONENTS + 1] = {0};
    struct component before[MAX_COMPONENTS];
    uint16_t count = 0;
    memcpy(before, result->components, sizeof before);
    for (int at = 0; at < len; at++) {
        uint16_t label = result->map[at];
        if (label == 0 || label > MAX_COMPONENTS)
            continue;
        if (new_label[label] == 0) {
            result->components[count] = before[label - 1];
            new_label[label] = ++count;
        }
        result->map[at] = new_label[label];
    }
}

/* Whether a competitor takes part in a task on packed rows. What the straightforward one does there stands in the
 * first table. */
static bool takes_part_packed(const struct task *task, int competitor)
{
    if (task->kind == PACK || task->kind == UNPACK || competitor == LIBRARY || competitor == BESIDE)
        return competitors[competitor]->packs;
    return competitor != STRAIGHTFORWARD;
}

/* Whether a competitor takes part in a task. */
static bool takes_part(int task, int competitor)
{
    if (competitors[competitor] == NULL)
        return false;
    if (tasks[task].start == PACKED)
        return takes_part_packed(&tasks[task], competitor);
    if (tasks[task].kind == LABEL_MUD && competitors[competitor]->max_components < MAX_COMPONENTS)
        return false;
    if (competitor == LIBRARY || competitor == BESIDE)
        return true;
    return tasks[task].start == BY_SCAN && (competitor == STRAIGHTFORWARD || tasks[task].kind < ERODE_STOPPING);
}

/* ---- checking */

static void run_and_tell(const struct competitor *competitor, const struct task *task, int number,
                         struct result *result)
{
    memset(result, 0, sizeof *result);
    competitor->prepare(task, number);
    competitor->run(task);
    competitor->tell(task, result);
    if (task->kind != LABEL_BOXES && task->kind != LABEL_IMAGES)
        return;
    memset(result->map, 0, sizeof result->map);
    for (int p = 0; p < MAX_COMPONENTS; p++)
        result->components[p].area = 0;
}

static void compare(int competitor, const struct task *task, int number, const struct result *expected)
{
    static struct result result;
    char message[256];
    run_and_tell(competitors[competitor], task, number, &result);
    if (memcmp(&result, expected, sizeof result) == 0)
        return;
    snprintf(message, sizeof message, "%s differs from straightforward: %s, plate %d of %dx%d",
             names[competitor], task->name, number, plates[number].width, plates[number].height);
    fail(message);
}

/* The task that an own one of the library must agree with: what is refused changes nothing. */
static struct task plain_task(const struct task *task)
{
    struct task plain = *task;
    plain.start = BY_SCAN;
    plain.kind = task->kind == REFUSED ? ERODE : task->kind;
    return plain;
}

static void check_task(int task)
{
    static struct result expected;
    struct task plain = plain_task(&tasks[task]);
    for (int k = 0; k < PLATES; k++) {
        run_and_tell(competitors[STRAIGHTFORWARD], &plain, k, &expected);
        for (int c = 0; c < COMPETITORS; c++) {
            if (c != STRAIGHTFORWARD && takes_part(task, c))
                compare(c, &tasks[task], k, &expected);
        }
    }
}

/* ---- measuring */

static double now(void)
{
    struct timespec time;
    clock_gettime(CLOCK_MONOTONIC, &time);
    return (double)time.tv_sec * 1e6 + (double)time.tv_nsec / 1e3;
}

/* The clock starts once all that the preparation wrote has reached the cache: else a short call waits for it,
 * longer or shorter by where the buffers happen to lie. */
static double timed_run(const struct competitor *competitor, const struct task *task, int number)
{
    competitor->prepare(task, number);
    atomic_thread_fence(memory_order_seq_cst);
    double before = now();
    competitor->run(task);
    return now() - before;
}

/* How often other processes took the processor. */
static long interruptions(void)
{
    struct rusage usage;
    getrusage(RUSAGE_SELF, &usage);
    return usage.ru_nivcsw;
}

/* A run that was interrupted is tried again, or else long ones would be longer than they are. */
static double undisturbed_run(const struct competitor *competitor, const struct task *task, int number)
{
    double shortest = 0;
    for (int i = 0; i < MAX_TRIES; i++) {
        long before = interruptions();
        double time = timed_run(competitor, task, number);
        if (i == 0 || time < shortest)
            shortest = time;
        if (interruptions() == before)
            break;
    }
    return shortest;
}

/* The first to take a plate finds it in no cache: the library and its older build take turns. */
static void measure_task(int task)
{
    for (int k = 0; k < PLATES; k++) {
        for (int i = 0; i < COMPETITORS; i++) {
            int c = HAS_BESIDE && (k + rounds) % 2 != 0 ? COMPETITORS - 1 - i : i;
            if (takes_part(task, c))
                times[task][c][k][rounds] = undisturbed_run(competitors[c], &tasks[task], k);
        }
    }
}

static void measure(void)
{
    double end = now() + SECONDS_A_SIZE * 1e6;
    for (rounds = 0; rounds < MAX_ROUNDS && (rounds < MIN_ROUNDS || now() < end); rounds++) {
        for (int t = 0; t < TASKS; t++)
            measure_task(t);
    }
}

static int compare_numbers(const void *a, const void *b)
{
    double first = *(const double *)a, second = *(const double *)b;
    return (first > second) - (first < second);
}

static double median(const double *numbers, int count)
{
    double sorted[MAX_ROUNDS];
    memcpy(sorted, numbers, (size_t)count * sizeof sorted[0]);
    qsort(sorted, (size_t)count, sizeof sorted[0], compare_numbers);
    return (sorted[(count - 1) / 2] + sorted[count / 2]) / 2;
}

/* Microseconds a plate. */
static double time_of(int task, int competitor)
{
    double sum = 0;
    for (int k = 0; k < PLATES; k++)
        sum += median(times[task][competitor][k], rounds);
    return sum / PLATES;
}

/* A competitor's time divided by the library's. For the older build, the library's time divided by that one's. */
static double ratio_of(int task, int competitor)
{
    double ratio = time_of(task, competitor) / time_of(task, LIBRARY);
    return competitor == BESIDE ? 1 / ratio : ratio;
}

/* ---- tables */

struct row {
    char cells[MAX_CELLS][CELL];
    int count;
};

static void add_text(struct row *row, const char *text)
{
    snprintf(row->cells[row->count++], CELL, "%s", text);
}

static void add_number(struct row *row, const char *format, double number)
{
    snprintf(row->cells[row->count++], CELL, format, number);
}

static void print_row(const char *name, const struct row *row)
{
    printf(markdown ? "| %-30s |" : "%-30s", name);
    for (int i = 0; i < row->count; i++)
        printf(markdown ? " %s |" : " %15s", row->cells[i]);
    printf("\n");
}

static void print_head(const char *name, const struct row *row)
{
    print_row(name, row);
    if (!markdown)
        return;
    printf("|---|");
    for (int i = 0; i < row->count; i++)
        printf("---:|");
    printf("\n");
}

static void print_comparison_head(const char *name)
{
    struct row row = {.count = 0};
    for (int c = 0; c < COMPETITORS; c++)
        add_text(&row, names[c]);
    for (int c = LIBRARY + 1; c < COMPETITORS; c++)
        add_text(&row, ratio_names[c]);
    print_head(name, &row);
}

static void print_comparison(int task)
{
    struct row row = {.count = 0};
    for (int c = 0; c < COMPETITORS; c++) {
        if (takes_part(task, c))
            add_number(&row, "%.2f", time_of(task, c));
        else
            add_text(&row, "-");
    }
    for (int c = LIBRARY + 1; c < COMPETITORS; c++) {
        if (takes_part(task, c))
            add_number(&row, "%.2f", ratio_of(task, c));
        else
            add_text(&row, "-");
    }
    print_row(tasks[task].name, &row);
}

/* The table of all tasks that start in this way. */
static void print_comparisons(const char *name, enum start start)
{
    print_comparison_head(name);
    for (int t = 0; t < TASKS; t++) {
        if (tasks[t].start == start)
            print_comparison(t);
    }
    printf("\n");
}

static double library_time(enum kind kind, int connectivity, int iterations, enum start start)
{
    for (int t = 0; t < TASKS; t++) {
        const struct task *task = &tasks[t];
        if (task->kind == kind && task->connectivity == connectivity && task->iterations == iterations &&
            task->start == start)
            return time_of(t, LIBRARY);
    }
    fail("there is no such task");
    return 0;
}

/* What an erosion without iterations takes beyond the judging of the buffers and the zeros behind the
 * contour. A long queue has the same zeros to be written once more. */
static double check_time(void)
{
    double unchanged = library_time(ERODE, 4, 0, FROM_CONTOUR);
    double zeros = library_time(ERODE, 4, 0, IN_LONG_QUEUE) - unchanged;
    return unchanged - zeros - library_time(REFUSED, 0, 0, FROM_CONTOUR);
}

/* An erosion or a dilation goes on words and does the same from either start, but for the check, whose packed
 * image it takes over. */
static double check_before(const struct task *task, double by_scan, double from_contour)
{
    return task->kind == ERODE || task->kind == DILATE ? from_contour - by_scan : check_time();
}

static void print_start(int number)
{
    struct row row = {.count = 0};
    const struct task *task = &tasks[number];
    double from_contour = time_of(number, LIBRARY);
    double by_scan = library_time(task->kind, task->connectivity, task->iterations, BY_SCAN);
    double check = check_before(task, by_scan, from_contour);
    add_number(&row, "%.2f", by_scan);
    add_number(&row, "%.2f", from_contour);
    add_number(&row, "%.2f", by_scan / from_contour);
    add_number(&row, "%.2f", check);
    add_number(&row, "%.0f %%", 100 * check / from_contour);
    if (HAS_BESIDE)
        add_number(&row, "%.2f", ratio_of(number, BESIDE));
    print_row(task->name, &row);
}

static bool does_little(int task)
{
    return tasks[task].kind == REFUSED || (tasks[task].kind == ERODE && tasks[task].iterations == 0);
}

static void print_starts(void)
{
    struct row head = {{"by a scan", "from a contour", "scan/contour", "check", "check's share"}, 5};
    if (HAS_BESIDE)
        add_text(&head, ratio_names[BESIDE]);
    print_head("how an operation starts", &head);
    for (int t = 0; t < TASKS; t++) {
        if (tasks[t].start == FROM_CONTOUR && !does_little(t))
            print_start(t);
    }
    printf("\n");
}

static void print_little(int task)
{
    struct row row = {.count = 0};
    add_number(&row, "%.2f", time_of(task, LIBRARY));
    if (HAS_BESIDE) {
        add_number(&row, "%.2f", time_of(task, BESIDE));
        add_number(&row, "%.2f", ratio_of(task, BESIDE));
    }
    print_row(tasks[task].name, &row);
}

static void print_littles(void)
{
    struct row head = {{"library"}, 1};
    if (HAS_BESIDE) {
        add_text(&head, names[BESIDE]);
        add_text(&head, ratio_names[BESIDE]);
    }
    print_head("calls that do little", &head);
    for (int t = 0; t < TASKS; t++) {
        if (does_little(t))
            print_little(t);
    }
    printf("\n");
}

static void print_tables(void)
{
    print_comparisons("microseconds a plate", BY_SCAN);
    print_starts();
    print_littles();
    print_comparisons("on packed rows", PACKED);
}

/* ---- the largest ratio to the older build */

static struct {
    double ratio, time, older_time;
    int task, size;
} largest;

static void find_largest(int size)
{
    for (int t = 0; t < TASKS; t++) {
        double ratio = takes_part(t, BESIDE) ? ratio_of(t, BESIDE) : 0;
        if (ratio <= largest.ratio)
            continue;
        largest.ratio = ratio;
        largest.time = time_of(t, LIBRARY);
        largest.older_time = time_of(t, BESIDE);
        largest.task = t;
        largest.size = size;
    }
}

static void print_largest(void)
{
    const struct task *task = &tasks[largest.task];
    printf("\nbeside is the older build. library/beside is the library's time divided by the older build's; a ratio\n"
           "above 1 means that the library has become slower. In the second and the third table of a size both start\n"
           "from a contour.\n\n");
    printf("Largest library/beside: %.2f, %s%s, %dx%d (%.2f / %.2f microseconds a plate).\n", largest.ratio,
           task->name, task->start == FROM_CONTOUR || task->start == IN_LONG_QUEUE ? ", from a contour" : "",
           sizes[largest.size].width, sizes[largest.size].height, largest.time, largest.older_time);
}

/* ---- the run */

static void print_versions(void)
{
    for (int c = 0; c < COMPETITORS; c++) {
        if (competitors[c] == NULL)
            printf("- %s: not installed\n", names[c]);
        else if (competitors[c]->version != NULL)
            printf("- %s: %s\n", names[c], competitors[c]->version());
    }
    printf("\n");
}

static void print_title(int width, int height)
{
    int least = width * height, most = 0;
    for (int k = 0; k < PLATES; k++) {
        int area = 0;
        for (int at = 0; at < width * height; at++)
            area += plates[k].image[at];
        least = area < least ? area : least;
        most = area > most ? area : most;
    }
    printf("%s%dx%d\n\n", markdown ? "## " : "", width, height);
    printf("%d plates, %d to %d %% object pixels, medians of %d rounds.\n\n", PLATES,
           100 * least / (width * height), 100 * most / (width * height), rounds);
}

static void load_size(int size)
{
    for (int k = 0; k < PLATES; k++)
        plate_make(&plates[k], sizes[size].width, sizes[size].height, (uint32_t)(k + 1));
    for (int c = 0; c < COMPETITORS; c++) {
        if (competitors[c] != NULL)
            competitors[c]->load(plates);
    }
}

static void check_size(int size)
{
    load_size(size);
    for (int t = 0; t < TASKS; t++)
        check_task(t);
}

static void measure_size(int size)
{
    load_size(size);
    measure();
    print_title(sizes[size].width, sizes[size].height);
    print_tables();
    if (HAS_BESIDE)
        find_largest(size);
    fflush(stdout);
}

int main(int argc, char **argv)
{
    markdown = argc == 2 && strcmp(argv[1], "--markdown") == 0;
    if (argc > 1 && !markdown) {
        fprintf(stderr, "bench: unknown argument %s; the only one known is --markdown\n", argv[1]);
        return 2;
    }
    for (int s = 0; s < SIZES; s++)
        check_size(s);
    print_versions();
    for (int s = 0; s < SIZES; s++)
        measure_size(s);
    printf("%s", notes);
    if (HAS_BESIDE)
        print_largest();
    return 0;
}
