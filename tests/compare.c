/*
 * compare.c: the calls, comparisons and counts of compare.h.
 */
#include "compare.h"

#include "chance.h"
#include "duhzarek.h"
#include "lent.h"
#include "library.h"

#include <inttypes.h>
#include <stdarg.h>
#include <stdbool.h>
#include <stdio.h>
#include <stdlib.h>
#include <string.h>

enum { DEFAULT_SEED = 1988, SHOWN_ENTRIES = 128 };

static const char *const names[KINDS] = {
    [ERODE] = "erode", [DILATE] = "dilate", [PROPAGATE] = "propagate", [FLOOD_FILL] = "flood_fill",
    [CLEAR_BORDER] = "clear_border", [ERODE_BY_SIDES] = "erode_by_sides", [SCAN] = "scan_image",
    [CONTOUR] = "contour", [LABEL] = "label_image", [DEPTH] = "depth", [WIDEN] = "widen_map",
    [ERODE_WORDS] = "erode_words", [ERODE_WORDS_BY_SIDES] = "erode_words_by_sides",
    [DILATE_WORDS] = "dilate_words", [PACK_WORDS] = "pack_words", [UNPACK_WORDS] = "unpack_words",
    [READ_JOB] = "read_job", [UNPACK_JOB] = "unpack_job", [WRITE_JOB] = "write_job", [RUN_STEPS] = "run_steps",
    [RUN_JOB] = "run_job", [LIST_JOB] = "lane_listing",
};

/* The refusals that duhzarek.h lists, up to the first 0. */
static const uint8_t listed[KINDS][REFUSALS] = {
    [ERODE] = {1, 2, 3, 4, 5, 6, 8},
    [DILATE] = {1, 2, 3, 4, 5, 8},
    [PROPAGATE] = {1, 2, 3, 4, 5, 8},
    [FLOOD_FILL] = {1, 2, 3, 4, 5, 7, 8},
    [CLEAR_BORDER] = {1, 2, 3, 4, 5, 8},
    [ERODE_BY_SIDES] = {1, 2, 3, 4, 5, 6, 8},
    [SCAN] = {1, 2, 3, 4},
    [LABEL] = {1, 2, 3, 4, 5, 11},
    [WIDEN] = {1, 2},
    [ERODE_WORDS] = {1, 2, 18, 5, 6},
    [ERODE_WORDS_BY_SIDES] = {1, 2, 18, 5, 6},
    [DILATE_WORDS] = {1, 2, 18, 5},
    [PACK_WORDS] = {1, 2, 4},
    [UNPACK_WORDS] = {1, 2, 18},
    [READ_JOB] = {12, 13, 1, 15, 14, 5, 6, 7, 16},
    [UNPACK_JOB] = {12, 13, 1, 15, 14, 5, 6, 7, 16, 2},
    [WRITE_JOB] = {1, 15, 13, 14, 5, 6, 7, 2, 4},
    [RUN_STEPS] = {1, 15, 13, 14, 5, 6, 7, 2, 3, 4},
    [RUN_JOB] = {12, 13, 1, 15, 14, 5, 6, 7, 16, 2, 3},
    [LIST_JOB] = {12, 13, 1, 17, 15, 14, 5, 6, 7, 16, 11},
};

/* What the most components and the most holes must exceed: a byte's labels, or the lane program's records. */
static const uint32_t must_exceed[KINDS] = {[LABEL] = LANE_RECORDS, [LIST_JOB] = UINT8_MAX};

static uint64_t seed = DEFAULT_SEED;
static const char *unit_name;
static unsigned long units, calls, calls_in_unit;
static unsigned long tally[KINDS][REFUSALS];
static uint32_t most[KINDS][2]; /* components and holes that an accepted call counted */

/* Accepted labellings by 4: those that would count other holes if background connected by 4 too, and those
 * with a depth of 2 or more. */
static unsigned long told_apart, nested;

/* Accepted propagations of many iterations that each changed few pixels, as along a winding path. */
enum { MANY_ITERATIONS = 40, FEW_PIXELS = 4 };
static unsigned long winding;

/* Accepted erosions by each sum of sides that leave another image than either border value. */
static unsigned long told_by_sides[KINDS][ALL_SIDES + 1];

static uint64_t read_seed(const char *program, int argc, char **argv)
{
    char *end;
    if (argc < 2)
        return DEFAULT_SEED;
    uint64_t given = strtoull(argv[1], &end, 10);
    if (argc > 2 || end == argv[1] || *end != '\0') {
        fprintf(stderr, "usage: %s [seed], the seed a decimal number\n", program);
        exit(2);
    }
    return given;
}

void begin_test(int argc, char **argv, const char *unit)
{
    seed = read_seed(argc > 0 ? argv[0] : "test", argc, argv);
    unit_name = unit;
    seed_chance(seed);
    allocate_buffers();
}

void begin_unit(void)
{
    units++;
    calls_in_unit = 0;
}

/* ---- telling a difference */

static void print_lent(enum buffer buffer)
{
    size_t len = lent_len(buffer);
    if (len == 0)
        return;
    fprintf(stderr, "%s, %zu entries, as the call began:", name_of(buffer), len);
    for (size_t k = 0; k < len && k < SHOWN_ENTRIES; k++)
        fprintf(stderr, buffer == WORDS ? " %016" PRIx64 : " %" PRIu64, entry_at(buffer, BEFORE, k));
    fprintf(stderr, "%s\n", len > SHOWN_ENTRIES ? " .." : "");
}

static void print_call(const struct call *call)
{
    fprintf(stderr, "call: %s width %zu height %zu start ", names[call->kind], call->width, call->height);
    if (call->start == BY_SCAN)
        fprintf(stderr, "scan");
    else
        fprintf(stderr, "%zu", call->start);
    fprintf(stderr, " connectivity %d border_value %d sides %d iterations %d x %d y %d contour_len %zu"
            " component %u step_count %zu\n", call->connectivity, call->border_value, call->sides,
            call->iterations, call->x, call->y, call->contour_len, (unsigned)call->component,
            call->step_count);
    for (enum buffer b = 0; b < BUFFERS; b++)
        print_lent(b);
}

_Noreturn void fail(const struct call *call, const char *format, ...)
{
    va_list arguments;
    fprintf(stderr, "difference: seed %llu, %s %lu, call %lu\n", (unsigned long long)seed, unit_name, units,
            calls_in_unit);
    print_call(call);
    fprintf(stderr, "differs: ");
    va_start(arguments, format);
    vfprintf(stderr, format, arguments);
    va_end(arguments);
    fprintf(stderr, "\n");
    exit(1);
}

/* ---- comparing */

static void check_entries(const struct call *call, enum buffer buffer, size_t from, enum side expected)
{
    size_t k = first_difference(buffer, from, LIBRARY, expected);
    if (k < lent_len(buffer))
        fail(call, buffer == WORDS ? "%s[%zu] is %016" PRIx64 ", expected %016" PRIx64
                                   : "%s[%zu] is %" PRIu64 ", expected %" PRIu64,
             name_of(buffer), k, entry_at(buffer, LIBRARY, k), entry_at(buffer, expected, k));
}

/* The library's front may have any order. Nothing is missing before nor after. */
static void check_front(const struct call *call, size_t len)
{
    static bool missing[MAX_PIXELS];
    for (size_t k = 0; k < len; k++)
        missing[entry_at(QUEUE, PLAIN, k)] = true;
    for (size_t k = 0; k < len; k++) {
        uint64_t at = entry_at(QUEUE, LIBRARY, k);
        if (!missing[at])
            fail(call, "queue[%zu] is %" PRIu64 ", not on the contour or there twice", k, at);
        missing[at] = false;
    }
}

static bool writes_queue(const struct call *call, size_t result)
{
    if (call->kind == LABEL)
        return result == 0 || (result >= TOO_MANY_COMPONENTS && result <= TOO_FEW_RECORDS);
    return result == 0 && (call->kind <= SCAN || call->kind == RUN_STEPS || call->kind == RUN_JOB);
}

size_t contour_told(enum kind kind)
{
    if (kind == SCAN)
        return *plain_numbers(SCANNED_LEN);
    return plain_numbers(COUNTS)[kind < SCAN ? 2 : 1];
}

static void check_queue(const struct call *call, size_t result)
{
    if (!writes_queue(call, result)) {
        check_entries(call, QUEUE, 0, BEFORE);
        return;
    }
    size_t len = call->kind == LABEL ? 0 : contour_told(call->kind);
    check_front(call, len);
    check_entries(call, QUEUE, len, PLAIN);
}

static void check_result(const struct call *call, size_t result, size_t expected)
{
    if (result != expected)
        fail(call, "the result is %zu, expected %zu", result, expected);
}

static void check_guards(const struct call *call)
{
    for (enum buffer b = 0; b < BUFFERS; b++)
        if (!guards_intact(b))
            fail(call, "bytes before or behind %s have changed", name_of(b));
}

/* ---- calling */

static size_t counts_len(enum kind kind)
{
    if (kind < SCAN || (kind >= ERODE_WORDS && kind <= DILATE_WORDS))
        return 3;
    if (kind == READ_JOB)
        return 4;
    return kind == LABEL || kind == RUN_STEPS || kind == RUN_JOB ? 2 : 0;
}

static void lend_answers(enum kind kind)
{
    lend(COUNTS, counts_len(kind));
    lend(REPORTS, kind == RUN_STEPS || kind == RUN_JOB ? 3 * MAX_STEPS : 0);
    lend(LISTING, kind == LIST_JOB ? DUHZAREK_MAX_LISTING : 0);
    lend(SCANNED_LEN, kind == SCAN);
    lend(BLANK_ROWS, kind == SCAN);
}

static size_t refusal_in(const struct call *call, size_t result)
{
    unsigned number;
    char line[16] = "";
    if (call->kind == CONTOUR || call->kind == DEPTH)
        return ACCEPTED;
    if (call->kind != LIST_JOB)
        return result;
    memcpy(line, plain_bytes(LISTING), result < sizeof line ? result : sizeof line - 1);
    return sscanf(line, "refused %u", &number) == 1 ? number : ACCEPTED;
}

/* Reads components and holes from the listing's line of counts, which a refused job does not have. */
static void read_listed_counts(size_t len, uint32_t counts[2])
{
    char front[DUHZAREK_MAX_LINE * (2 + MAX_STEPS)] = "";
    memcpy(front, plain_bytes(LISTING), len < sizeof front ? len : sizeof front - 1);
    const char *line = strstr(front, "\nparts ");
    if (line != NULL)
        sscanf(line, "\nparts %" SCNu32 " %" SCNu32, &counts[0], &counts[1]);
}

static void keep_most(const struct call *call, size_t result)
{
    uint32_t counts[2] = {0, 0};
    if (call->kind == LABEL)
        memcpy(counts, plain_numbers(COUNTS), sizeof counts);
    else if (call->kind == LIST_JOB)
        read_listed_counts(result, counts);
    for (size_t k = 0; k < 2; k++)
        most[call->kind][k] = counts[k] > most[call->kind][k] ? counts[k] : most[call->kind][k];
}

static void keep_holes(const struct call *call, size_t result)
{
    struct call asked = *call;
    bool deep = false;
    if (call->kind != LABEL || call->connectivity != 4 || result != ACCEPTED)
        return;
    asked.kind = DEPTH;
    for (asked.component = 1; asked.component <= call->counts[0]; asked.component++)
        deep = deep || plain_call(&asked) >= 2;
    told_apart += plain_count_holes(call, 4) != call->counts[1];
    nested += deep;
}

/* Tells whether a border value in place of the sides leaves another image. */
static bool differs_by_border_value(const struct call *call, uint8_t border_value)
{
    static uint8_t image[MAX_PIXELS];
    static uint16_t queue[MAX_PIXELS];
    uint32_t counts[3];
    struct call asked = *call;
    asked.kind = ERODE;
    asked.start = BY_SCAN;
    asked.border_value = border_value;
    asked.image = image;
    asked.queue = queue;
    asked.queue_len = call->image_len;
    asked.counts = counts;
    for (size_t at = 0; at < call->image_len; at++)
        image[at] = (uint8_t)entry_at(IMAGE, BEFORE, at);
    plain_call(&asked);
    return memcmp(image, call->image, call->image_len) != 0;
}

/* The same of packed rows. */
static bool words_differ_by_border_value(const struct call *call, uint8_t border_value)
{
    static uint64_t words[MAX_WORDS];
    uint32_t counts[3];
    struct call asked = *call;
    asked.kind = ERODE_WORDS;
    asked.border_value = border_value;
    asked.words = words;
    asked.counts = counts;
    for (size_t k = 0; k < call->words_len; k++)
        words[k] = entry_at(WORDS, BEFORE, k);
    plain_call(&asked);
    return memcmp(words, call->words, call->words_len * sizeof *words) != 0;
}

static void keep_sides(const struct call *call, size_t result)
{
    bool told = false;
    if (result != ACCEPTED)
        return;
    if (call->kind == ERODE_BY_SIDES)
        told = differs_by_border_value(call, 0) && differs_by_border_value(call, 1);
    else if (call->kind == ERODE_WORDS_BY_SIDES)
        told = words_differ_by_border_value(call, 0) && words_differ_by_border_value(call, 1);
    if (told)
        told_by_sides[call->kind][call->sides]++;
}

static void keep_winding(const struct call *call, size_t result)
{
    if (call->kind != PROPAGATE || result != ACCEPTED)
        return;
    uint32_t changed = call->counts[0], used = call->counts[1];
    winding += used >= MANY_ITERATIONS && changed < FEW_PIXELS * used;
}

static void keep_count(const struct call *call, size_t result)
{
    calls++;
    tally[call->kind][refusal_in(call, result)]++;
    keep_most(call, result);
    keep_holes(call, result);
    keep_sides(call, result);
    keep_winding(call, result);
}

size_t try_call(const struct call *call)
{
    struct call of_library = *call;
    struct call of_plain = *call;
    calls_in_unit++;
    lend_answers(call->kind);
    lend_all(&of_library, LIBRARY);
    lend_all(&of_plain, PLAIN);
    keep_before();
    size_t result = library_call(&of_library);
    size_t expected = plain_call(&of_plain);
    check_guards(call);
    check_result(call, result, expected);
    for (enum buffer b = 0; b < BUFFERS; b++)
        if (b != QUEUE)
            check_entries(call, b, 0, PLAIN);
    check_queue(call, result);
    if (units > 0)
        keep_count(&of_plain, result);
    return result;
}

/* ---- what was done */

static unsigned long total_of(enum kind kind)
{
    unsigned long total = 0;
    for (size_t number = 0; number < REFUSALS; number++)
        total += tally[kind][number];
    return total;
}

/* Tells whether the kind gave exactly the refusals that are listed for it. */
static bool check_refusals(enum kind kind)
{
    bool good = true;
    for (int number = 1; number < REFUSALS; number++) {
        bool expected = memchr(listed[kind], number, REFUSALS) != NULL;
        bool seen = tally[kind][number] > 0;
        if (expected == seen)
            continue;
        fprintf(stderr, "%s: refusal %d is %s\n", names[kind], number,
                seen ? "not among those listed" : "listed but was never given");
        good = false;
    }
    return good;
}

static bool check_most(enum kind kind)
{
    unsigned least = must_exceed[kind];
    if (least == 0 || (most[kind][0] > least && most[kind][1] > least))
        return true;
    fprintf(stderr, "%s: up to %u components and %u holes, not over %u of each\n", names[kind],
            (unsigned)most[kind][0], (unsigned)most[kind][1], least);
    return false;
}

static bool check_holes(enum kind kind)
{
    if (kind != LABEL || (told_apart > 0 && nested > 0))
        return true;
    fprintf(stderr, "%s by 4: %lu told apart by the holes' connectivity and %lu nested, not some of each\n",
            names[kind], told_apart, nested);
    return false;
}

/* No side at all is border value 0, and all sides are border value 1. */
static bool check_sides(enum kind kind)
{
    bool good = true;
    if (kind != ERODE_BY_SIDES && kind != ERODE_WORDS_BY_SIDES)
        return true;
    for (int sides = 1; sides < ALL_SIDES; sides++) {
        if (told_by_sides[kind][sides] > 0)
            continue;
        fprintf(stderr, "%s: sides %d never left another image than either border value\n", names[kind], sides);
        good = false;
    }
    return good;
}

static bool check_winding(enum kind kind)
{
    if (kind != PROPAGATE || winding > 0)
        return true;
    fprintf(stderr, "%s: none of many iterations that each changed few pixels\n", names[kind]);
    return false;
}

static unsigned long total_told_by_sides(enum kind kind)
{
    unsigned long total = 0;
    for (int sides = 0; sides <= ALL_SIDES; sides++)
        total += told_by_sides[kind][sides];
    return total;
}

static void print_kinds(void)
{
    for (enum kind kind = ERODE; kind < KINDS; kind++) {
        if (total_of(kind) > 0)
            printf(" %s %lu", names[kind], total_of(kind));
        if (most[kind][0] > 0)
            printf(" (up to %u components, %u holes)", (unsigned)most[kind][0], (unsigned)most[kind][1]);
        if (kind == LABEL && total_of(kind) > 0)
            printf(" (by 4 %lu told apart by the holes' connectivity, %lu nested)", told_apart, nested);
        if (kind == PROPAGATE && winding > 0)
            printf(" (%lu of many iterations that each changed few pixels)", winding);
        if (total_told_by_sides(kind) > 0)
            printf(" (%lu told apart from both border values)", total_told_by_sides(kind));
    }
}

static void print_refusals(void)
{
    for (int number = 1; number < REFUSALS; number++) {
        unsigned long total = 0;
        for (int kind = ERODE; kind < KINDS; kind++)
            total += tally[kind][number];
        if (total > 0)
            printf(" %d: %lu", number, total);
    }
}

void end_test(enum kind first, enum kind last)
{
    bool good = true;
    printf("calls: %lu in %lu %ss;", calls, units, unit_name);
    print_kinds();
    printf("; refused");
    print_refusals();
    printf(": no difference\n");
    for (enum kind kind = first; kind <= last; kind++) {
        good = check_refusals(kind) && good;
        good = check_most(kind) && good;
        good = check_holes(kind) && good;
        good = check_sides(kind) && good;
        good = check_winding(kind) && good;
    }
    if (!good)
        exit(1);
}
