/*
 * answers.c: the writing of answers.h.
 */
#include "answers.h"

#include "duhzarek.h"
#include "lent.h"

#include <inttypes.h>
#include <stdio.h>
#include <stdlib.h>

enum {
    SMALL = 64,    /* a larger image or map is written as a count, a larger contour as its length alone */
    FEW = 16,      /* of more components only the first and the last one's records are written */
    FEW_WORDS = 15 /* more words are written as a count */
};

/* ---- how buffers are left */

/* Of a buffer whose entries have at most 32 bits. */
static uint32_t entry(enum buffer buffer, size_t k)
{
    return (uint32_t)entry_at(buffer, LIBRARY, k);
}

static bool unchanged_from(enum buffer buffer, size_t from)
{
    return first_difference(buffer, from, LIBRARY, BEFORE) == lent_len(buffer);
}

static bool zeros_from(enum buffer buffer, size_t from)
{
    for (size_t k = from; k < lent_len(buffer); k++)
        if (entry_at(buffer, LIBRARY, k) != 0)
            return false;
    return true;
}

static const char *left(bool unchanged, bool zeros)
{
    return unchanged ? "unchanged" : zeros ? "zeros" : "changed";
}

/* ---- images and maps */

static int sign(uint32_t value)
{
    static const char signs[] = "0123456789abcdefghijklmnopqrstuvwxyz";
    return value < sizeof signs - 1 ? signs[value] : '?';
}

static void print_rows(enum buffer buffer, size_t width)
{
    for (size_t at = 0; at < lent_len(buffer); at++) {
        if (at > 0 && width > 0 && at % width == 0)
            putchar('/');
        putchar(sign(entry(buffer, at)));
    }
}

static void print_image(size_t width)
{
    size_t object = 0;
    for (size_t at = 0; at < lent_len(IMAGE); at++)
        object += entry(IMAGE, at) == 1;
    if (lent_len(IMAGE) > SMALL)
        printf("%zu object", object);
    else
        print_rows(IMAGE, width);
}

/* Labels that were cut to a byte would show in the largest. */
static void print_map_sum(enum buffer map)
{
    size_t labelled = 0;
    uint32_t largest = 0;
    for (size_t at = 0; at < lent_len(map); at++) {
        labelled += entry(map, at) != 0;
        largest = entry(map, at) > largest ? entry(map, at) : largest;
    }
    printf("%zu labelled, largest %u", labelled, (unsigned)largest);
}

static void print_map(const char *name, enum buffer map, size_t width)
{
    printf("  %s map ", name);
    if (lent_len(map) > SMALL)
        print_map_sum(map);
    else
        print_rows(map, width);
    printf("\n");
}

/* ---- queues */

static void print_front(size_t len)
{
    for (size_t k = 0; k < len; k++)
        printf(" %u", (unsigned)entry(QUEUE, k));
}

static int compare_positions(const void *left_position, const void *right_position)
{
    return *(const uint16_t *)left_position - *(const uint16_t *)right_position;
}

/* In rising order, since the queue's order is free. */
static void print_contour(size_t len)
{
    uint16_t positions[SMALL];
    if (len == 0 || len > SMALL)
        return;
    for (size_t k = 0; k < len; k++)
        positions[k] = (uint16_t)entry(QUEUE, k);
    qsort(positions, len, sizeof *positions, compare_positions);
    printf(" at");
    for (size_t k = 0; k < len; k++)
        printf(" %u", (unsigned)positions[k]);
}

static void print_behind_contour(size_t len)
{
    if (len > lent_len(QUEUE)) {
        printf(", beyond the queue");
    } else if (zeros_from(QUEUE, len)) {
        printf(", %zu zeros behind", lent_len(QUEUE) - len);
    } else {
        printf(", junk behind in");
        print_front(lent_len(QUEUE));
    }
}

void print_stretch(size_t len)
{
    if (len == 0) {
        printf("  none\n");
        return;
    }
    printf(" ");
    print_front(len);
    printf("\n");
}

/* ---- operations and scans */

static void print_handed_on(const struct call *call, size_t len)
{
    printf(" contour %zu", len);
    print_contour(duhzarek_contour(call->queue, call->queue_len, len));
    print_behind_contour(len);
}

void print_operation(const struct call *call)
{
    printf("  ");
    print_image(call->width);
    printf(" changed %u used %u", (unsigned)call->counts[0], (unsigned)call->counts[1]);
    print_handed_on(call, call->counts[2]);
    printf("\n");
}

void print_scan(const struct call *call)
{
    printf("  ");
    print_image(call->width);
    print_handed_on(call, *call->scanned_len);
    printf(", blank rows %u\n", (unsigned)*call->blank_rows);
}

static void print_refused(const struct call *call, size_t refusal)
{
    printf("  refused %zu, ", refusal);
    if (unchanged_from(IMAGE, 0) && unchanged_from(QUEUE, 0)) {
        printf("unchanged");
        return;
    }
    printf("image now ");
    print_image(call->width);
    printf(", queue now");
    print_front(lent_len(QUEUE));
}

void print_refused_operation(const struct call *call, size_t refusal)
{
    print_refused(call, refusal);
    printf("\n");
}

void print_refused_scan(const struct call *call, size_t refusal)
{
    print_refused(call, refusal);
    printf(", contour %u blank rows %u\n", (unsigned)*call->scanned_len, (unsigned)*call->blank_rows);
}

/* ---- labelling */

static void print_behind_records(size_t len)
{
    if (len > lent_len(RECORDS))
        printf(", beyond the records\n");
    else
        printf(", %zu record entries behind %s\n", lent_len(RECORDS) - len,
               left(unchanged_from(RECORDS, len), false));
}

static void print_component(const struct call *call, uint32_t p)
{
    size_t end = (size_t)DUHZAREK_RECORD * p;
    printf("  part");
    for (size_t k = end - DUHZAREK_RECORD; k < end && k < call->records_len; k++)
        printf(" %u", (unsigned)call->records[k]);
    printf(", depth %u\n", (unsigned)duhzarek_depth(call->records, call->records_len, p));
}

static void print_components(const struct call *call, uint32_t components)
{
    if (components > FEW) {
        print_component(call, 1);
        print_component(call, components);
        return;
    }
    for (uint32_t p = 1; p <= components; p++)
        print_component(call, p);
}

void print_labelling(const struct call *call)
{
    uint32_t components = call->counts[0];
    printf("  parts %u holes %u, workspace %s", (unsigned)components, (unsigned)call->counts[1],
           zeros_from(QUEUE, 0) ? "zeros" : "not zeros");
    print_behind_records((size_t)DUHZAREK_RECORD * components);
    print_map("part", COMPONENTS, call->width);
    print_map("hole", HOLES, call->width);
    print_components(call, components);
}

void print_refused_labelling(size_t refusal)
{
    bool unchanged_maps = unchanged_from(COMPONENTS, 0) && unchanged_from(HOLES, 0);
    bool zero_maps = zeros_from(COMPONENTS, 0) && zeros_from(HOLES, 0);
    printf("  refused %zu, maps %s, workspace %s, records %s\n", refusal, left(unchanged_maps, zero_maps),
           left(unchanged_from(QUEUE, 0), zeros_from(QUEUE, 0)),
           left(unchanged_from(RECORDS, 0), zeros_from(RECORDS, 0)));
}

/* ---- listings */

void print_listing(size_t len)
{
    for (size_t k = 0; k < len; k++) {
        if (k == 0 || entry(LISTING, k - 1) == '\n')
            printf("  ");
        putchar((int)entry(LISTING, k));
    }
}

/* ---- maps carried over */

static void print_numbers(enum buffer map, size_t width)
{
    for (size_t at = 0; at < lent_len(map); at++)
        printf("%s%u", at == 0 ? "" : at % width == 0 ? "/" : " ", (unsigned)entry(map, at));
}

static void print_kept(void)
{
    size_t kept = 0;
    for (size_t at = 0; at < lent_len(BYTES); at++)
        kept += entry(COMPONENTS, at) == entry_at(BYTES, BEFORE, at);
    printf("%zu of %zu kept", kept, lent_len(BYTES));
}

void print_widening(const struct call *call)
{
    printf("  map ");
    if (lent_len(COMPONENTS) > SMALL)
        print_kept();
    else
        print_numbers(COMPONENTS, call->width);
    printf(", byte map %s\n", left(unchanged_from(BYTES, 0), false));
}

void print_refused_widening(size_t refusal)
{
    printf("  refused %zu, map %s, byte map %s\n", refusal, left(unchanged_from(COMPONENTS, 0), false),
           left(unchanged_from(BYTES, 0), false));
}

/* ---- packed rows */

static size_t count_bits(uint64_t word)
{
    size_t count = 0;
    for (; word != 0; word >>= 1)
        count += word & 1;
    return count;
}

/* Unused bits count too: then the count is not the area. */
static void print_word_sum(void)
{
    size_t object = 0;
    for (size_t k = 0; k < lent_len(WORDS); k++)
        object += count_bits(entry_at(WORDS, LIBRARY, k));
    printf("%zu object in %zu words", object, lent_len(WORDS));
}

static void print_row_words(size_t width)
{
    size_t row_words = DUHZAREK_ROW_WORDS(width);
    for (size_t k = 0; k < lent_len(WORDS); k++)
        printf("%s%016" PRIx64, k == 0 ? "" : k % row_words == 0 ? "/" : " ", entry_at(WORDS, LIBRARY, k));
}

static void print_words(size_t width)
{
    if (lent_len(WORDS) > FEW_WORDS)
        print_word_sum();
    else
        print_row_words(width);
}

static void print_word_counts(const struct call *call)
{
    printf(" changed %u used %u area %u\n", (unsigned)call->counts[0], (unsigned)call->counts[1],
           (unsigned)call->counts[2]);
}

void print_operation_on_words(const struct call *call)
{
    printf("  ");
    print_words(call->width);
    print_word_counts(call);
}

void print_refused_operation_on_words(const struct call *call, size_t refusal)
{
    printf("  refused %zu, %s,", refusal, left(unchanged_from(WORDS, 0), zeros_from(WORDS, 0)));
    print_word_counts(call);
}

void print_packing(const struct call *call)
{
    printf("  ");
    print_words(call->width);
    printf(", image %s\n", left(unchanged_from(IMAGE, 0), zeros_from(IMAGE, 0)));
}

void print_unpacking(const struct call *call)
{
    printf("  ");
    print_image(call->width);
    printf(", words %s\n", left(unchanged_from(WORDS, 0), zeros_from(WORDS, 0)));
}

void print_refused_packing(size_t refusal)
{
    printf("  refused %zu, image %s, words %s\n", refusal, left(unchanged_from(IMAGE, 0), zeros_from(IMAGE, 0)),
           left(unchanged_from(WORDS, 0), zeros_from(WORDS, 0)));
}
