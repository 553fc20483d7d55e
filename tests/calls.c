/*
 * calls.c: makes the calls that a script asks for, and writes each of its lines with what came back below.
 *
 *     calls < tests/calls.script
 *
 * The output has to be tests/calls.expected. Lines that begin with # are comments; `forms` lists the others,
 * with the kinds of words that script.h explains. What a line sets up and what a call leaves stays for the
 * lines that follow.
 */
#include "answers.h"
#include "duhzarek.h"
#include "lent.h"
#include "library.h"
#include "script.h"

#include <stdio.h>
#include <stdlib.h>
#include <string.h>

/* What the buffers hold where the script leaves it open; both bytes of a map's entry are set. */
enum { QUEUE_JUNK = 9, MAP_JUNK = 0x0707, RECORD_JUNK = 77, IMAGE_JUNK = 5 };
#define WORD_JUNK UINT64_C(0x5a5a5a5a5a5a5a5a)

enum figure { STRIPES, WINDING_PATH, DOTS, CHECKERBOARD, NESTED_RINGS, SIEVE };

/* The line at hand, and what stays from line to line beside the buffers. */
struct script {
    struct line line;
    const struct form *form;
    size_t width, height; /* as calls are told; buffers may have other lengths */
    size_t contour_len;   /* as the last accepted operation or scan told */
};

struct form {
    const char *words;
    void (*obey)(struct script *script);
    enum buffer buffer; /* the one to lend */
    enum figure figure; /* the one to draw */
    enum kind kind;     /* the operation to call */
};

static size_t number_of(const struct script *script, size_t k)
{
    return number(&script->line, k);
}

static void reject_line(void)
{
    printf("  not understood\n");
}

/* ---- buffers */

static void put(enum buffer buffer, size_t k, size_t value)
{
    put_entry(buffer, LIBRARY, k, value);
}

static void lend_filled(enum buffer buffer, size_t len, size_t value)
{
    lend(buffer, len);
    for (size_t k = 0; k < len; k++)
        put(buffer, k, value);
}

static size_t count_slashes(const char *rows)
{
    size_t count = 0;
    for (; *rows != '\0'; rows++)
        count += *rows == '/';
    return count;
}

/* A digit is a pixel with its value, which may be a bad one. */
static void lend_rows(enum buffer buffer, const char *rows)
{
    size_t len = 0;
    lend(buffer, strlen(rows) - count_slashes(rows));
    for (; *rows != '\0'; rows++)
        if (*rows != '/')
            put(buffer, len++, (size_t)(*rows - '0'));
}

static void take_rows(struct script *script)
{
    lend_rows(script->form->buffer, script->line.words[1]);
}

static void take_none(struct script *script)
{
    lend(script->form->buffer, 0);
}

/* The buffer's length, what it is filled with, and its first entries. */
static void take_entries(struct script *script)
{
    size_t len = number_of(script, 1);
    size_t given = script->line.count - 3;
    if (given > len) {
        reject_line();
        return;
    }
    lend_filled(script->form->buffer, len, number_of(script, 2));
    for (size_t k = 0; k < given; k++)
        put(script->form->buffer, k, number_of(script, 3 + k));
}

static void copy_image_to_mask(struct script *script)
{
    (void)script;
    lend(MASK, lent_len(IMAGE));
    for (size_t at = 0; at < lent_len(IMAGE); at++)
        put(MASK, at, entry_at(IMAGE, LIBRARY, at));
}

static void copy_image_to_words(struct script *script)
{
    size_t width = script->width;
    size_t row_words = DUHZAREK_ROW_WORDS(width);
    if (width > DUHZAREK_MAX_SIDE || lent_len(IMAGE) != width * script->height) {
        reject_line();
        return;
    }
    lend_filled(WORDS, script->height * row_words, 0);
    for (size_t at = 0; at < lent_len(IMAGE); at++) {
        size_t x = at % width;
        size_t k = at / width * row_words + x / 64;
        put(WORDS, k, entry_at(WORDS, LIBRARY, k) | entry_at(IMAGE, LIBRARY, at) << (63 - x % 64));
    }
}

/* ---- crops */

static void take_size(struct script *script)
{
    script->width = number_of(script, 1);
    script->height = number_of(script, 2);
}

static void take_crop(struct script *script)
{
    const char *rows = script->line.words[1];
    script->width = strcspn(rows, "/");
    script->height = count_slashes(rows) + 1;
    lend_rows(IMAGE, rows);
    lend(MASK, 0);
    lend_filled(QUEUE, lent_len(IMAGE), QUEUE_JUNK);
}

static void take_full(struct script *script)
{
    take_size(script);
    lend_filled(IMAGE, script->width * script->height, number_of(script, 3));
    lend_filled(QUEUE, lent_len(IMAGE), QUEUE_JUNK);
}

static size_t from_nearer_end(size_t at, size_t len)
{
    return at < len - 1 - at ? at : len - 1 - at;
}

static bool figure_pixel(enum figure figure, size_t x, size_t y, size_t width, size_t height)
{
    size_t column = from_nearer_end(x, width);
    size_t row = from_nearer_end(y, height);
    switch (figure) {
    case STRIPES:
        return x % 2 == 1;
    case WINDING_PATH:
        return y % 2 == 0 || x == (y % 4 == 1 ? width - 1 : 0);
    case DOTS:
        return x % 2 == 0 && y % 2 == 0;
    case CHECKERBOARD:
        return (x + y) % 2 == 0;
    case NESTED_RINGS:
        return (column < row ? column : row) % 2 == 0;
    default:
        return x % 2 == 0 || y % 2 == 0;
    }
}

static void take_figure(struct script *script)
{
    take_size(script);
    size_t width = script->width;
    lend(IMAGE, width * script->height);
    for (size_t at = 0; at < lent_len(IMAGE); at++)
        put(IMAGE, at, figure_pixel(script->form->figure, at % width, at / width, width, script->height));
}

static void set_pixel(struct script *script)
{
    size_t x = number_of(script, 1);
    size_t at = number_of(script, 2) * script->width + x;
    if (script->width > DUHZAREK_MAX_SIDE || x >= script->width || at >= lent_len(IMAGE))
        reject_line();
    else
        put(IMAGE, at, number_of(script, 3));
}

/* ---- calls */

static struct call begin_call(const struct script *script, enum kind kind)
{
    struct call call = {.kind = kind, .width = script->width, .height = script->height};
    lend(COUNTS, kind == LABEL ? 2 : 3);
    lend(SCANNED_LEN, 1);
    lend(BLANK_ROWS, 1);
    lend_all(&call, LIBRARY);
    return call;
}

static size_t make_call(const struct call *call)
{
    keep_before();
    size_t result = library_call(call);
    for (enum buffer b = 0; b < BUFFERS; b++) {
        if (guards_intact(b))
            continue;
        fprintf(stderr, "bytes before or behind %s have changed\n", name_of(b));
        exit(1);
    }
    return result;
}

static void call_contour(struct script *script)
{
    struct call call = begin_call(script, CONTOUR);
    call.contour_len = number_of(script, 1);
    print_stretch(make_call(&call));
}

static void call_depth(struct script *script)
{
    struct call call = begin_call(script, DEPTH);
    call.component = (uint32_t)number_of(script, 1);
    printf("  depth %zu\n", make_call(&call));
}

static void call_label(struct script *script)
{
    lend_filled(RECORDS, number_of(script, 2), RECORD_JUNK);
    lend_filled(COMPONENTS, number_of(script, 3), MAP_JUNK);
    lend_filled(HOLES, number_of(script, 3), MAP_JUNK);
    struct call call = begin_call(script, LABEL);
    call.connectivity = (uint8_t)number_of(script, 1);
    size_t refusal = make_call(&call);
    if (refusal == ACCEPTED)
        print_labelling(&call);
    else
        print_refused_labelling(refusal);
}

static void call_widen(struct script *script)
{
    lend_filled(COMPONENTS, number_of(script, 1), MAP_JUNK);
    struct call call = begin_call(script, WIDEN);
    size_t refusal = make_call(&call);
    if (refusal == ACCEPTED)
        print_widening(&call);
    else
        print_refused_widening(refusal);
}

static void list_job(struct script *script)
{
    size_t len = script->line.count - 1;
    lend(JOB, len);
    for (size_t k = 0; k < len; k++)
        put(JOB, k, number_of(script, 1 + k));
    lend(LISTING, DUHZAREK_MAX_LISTING);
    struct call call = begin_call(script, LIST_JOB);
    print_listing(make_call(&call));
}

static size_t start_of(const struct script *script)
{
    const char *word = script->line.words[1];
    if (strcmp(word, "sweep") == 0)
        return DUHZAREK_SCAN;
    if (strcmp(word, "last") == 0)
        return script->contour_len;
    return number_of(script, 1);
}

static struct call begin_operation(const struct script *script)
{
    struct call call = begin_call(script, script->form->kind);
    call.start = start_of(script);
    call.connectivity = (uint8_t)number_of(script, 2);
    if (call.kind == ERODE) {
        call.border_value = (uint8_t)number_of(script, 3);
        call.iterations = (uint16_t)number_of(script, 4);
    } else if (call.kind == ERODE_BY_SIDES) {
        call.sides = (uint8_t)number_of(script, 3);
        call.iterations = (uint16_t)number_of(script, 4);
    } else if (call.kind == FLOOD_FILL) {
        call.x = (uint16_t)number_of(script, 3);
        call.y = (uint16_t)number_of(script, 4);
    } else if (call.kind != CLEAR_BORDER) {
        call.iterations = (uint16_t)number_of(script, 3);
    }
    return call;
}

static void call_operation(struct script *script)
{
    struct call call = begin_operation(script);
    size_t refusal = make_call(&call);
    if (refusal != ACCEPTED) {
        print_refused_operation(&call, refusal);
        return;
    }
    print_operation(&call);
    script->contour_len = call.counts[2];
}

static void call_scan(struct script *script)
{
    struct call call = begin_call(script, SCAN);
    size_t refusal = make_call(&call);
    if (refusal != ACCEPTED) {
        print_refused_scan(&call, refusal);
        return;
    }
    print_scan(&call);
    script->contour_len = *call.scanned_len;
}

/* ---- calls on packed rows */

static void call_operation_on_words(struct script *script)
{
    struct call call = begin_call(script, script->form->kind);
    call.connectivity = (uint8_t)number_of(script, 1);
    if (call.kind == ERODE_WORDS)
        call.border_value = (uint8_t)number_of(script, 2);
    if (call.kind == ERODE_WORDS_BY_SIDES)
        call.sides = (uint8_t)number_of(script, 2);
    call.iterations = (uint16_t)number_of(script, call.kind == DILATE_WORDS ? 2 : 3);
    size_t refusal = make_call(&call);
    if (refusal == ACCEPTED)
        print_operation_on_words(&call);
    else
        print_refused_operation_on_words(&call, refusal);
}

static void call_pack(struct script *script)
{
    lend_filled(WORDS, number_of(script, 1), WORD_JUNK);
    struct call call = begin_call(script, PACK_WORDS);
    size_t refusal = make_call(&call);
    if (refusal == ACCEPTED)
        print_packing(&call);
    else
        print_refused_packing(refusal);
}

static void call_unpack(struct script *script)
{
    lend_filled(IMAGE, number_of(script, 1), IMAGE_JUNK);
    struct call call = begin_call(script, UNPACK_WORDS);
    size_t refusal = make_call(&call);
    if (refusal == ACCEPTED)
        print_unpacking(&call);
    else
        print_refused_packing(refusal);
}

/* ---- the script */

static const struct form forms[] = {
    {"size N N", .obey = take_size},
    {"crop R", .obey = take_crop},     /* its size and image, a queue as long, no mask */
    {"full D D B", .obey = take_full}, /* the same of one value; the mask stays */
    {"stripes D D", .obey = take_figure, .figure = STRIPES},
    {"path D D", .obey = take_figure, .figure = WINDING_PATH},
    {"even D D", .obey = take_figure, .figure = DOTS},
    {"checkerboard D D", .obey = take_figure, .figure = CHECKERBOARD},
    {"rings D D", .obey = take_figure, .figure = NESTED_RINGS},
    {"holes D D", .obey = take_figure, .figure = SIEVE},
    {"set S S B", .obey = set_pixel},
    {"image R", .obey = take_rows, .buffer = IMAGE},
    {"image none", .obey = take_none, .buffer = IMAGE},
    {"mask R", .obey = take_rows, .buffer = MASK},
    {"mask none", .obey = take_none, .buffer = MASK},
    {"mask image", .obey = copy_image_to_mask},
    {"queue N S *S", .obey = take_entries, .buffer = QUEUE},
    {"records N V *V", .obey = take_entries, .buffer = RECORDS},
    {"bytes N B *B", .obey = take_entries, .buffer = BYTES},
    {"words N X *X", .obey = take_entries, .buffer = WORDS},
    {"words image", .obey = copy_image_to_words},
    {"stretch N", .obey = call_contour},
    {"depth V", .obey = call_depth},
    {"label B N N", .obey = call_label}, /* the connectivity, the lengths of the records and of each map */
    {"widen N", .obey = call_widen},     /* the length of the map that is written */
    {"pack N", .obey = call_pack},       /* the number of words that are written */
    {"unpack N", .obey = call_unpack},   /* the length of the image that is written */
    {"list *B", .obey = list_job},       /* the bytes of a job */
    {"sweep", .obey = call_scan},
    {"erode C B B S", .obey = call_operation, .kind = ERODE},
    {"erode_by_sides C B B S", .obey = call_operation, .kind = ERODE_BY_SIDES},
    {"dilate C B S", .obey = call_operation, .kind = DILATE},
    {"propagate C B S", .obey = call_operation, .kind = PROPAGATE},
    {"fill C B S S", .obey = call_operation, .kind = FLOOD_FILL},
    {"drop C B", .obey = call_operation, .kind = CLEAR_BORDER},
    {"erode_words B B S", .obey = call_operation_on_words, .kind = ERODE_WORDS},
    {"erode_words_by_sides B B S", .obey = call_operation_on_words, .kind = ERODE_WORDS_BY_SIDES},
    {"dilate_words B S", .obey = call_operation_on_words, .kind = DILATE_WORDS},
};

static void obey(struct script *script)
{
    for (size_t k = 0; k < sizeof forms / sizeof *forms; k++) {
        if (!fits(&script->line, forms[k].words))
            continue;
        script->form = &forms[k];
        forms[k].obey(script);
        return;
    }
    reject_line();
}

int main(void)
{
    static struct script script;
    allocate_buffers();
    while (read_line(&script.line)) {
        const char *text = script.line.text;
        puts(text);
        if (*text == '\0' || *text == '#')
            continue;
        split_line(&script.line);
        obey(&script);
    }
    return 0;
}
