/*
 * random_words.c: random lists of calls on packed rows, made of the library and of the reference side by side.
 *
 *     random_words [seed]
 *
 * A list is some calls, one after another, on one size and one packed image, wrong ones too. What an operation
 * leaves and counts is also held against the same operation on the image of bytes, by a scan and from a contour;
 * what was packed is unpacked again, and what was unpacked is packed again. Before the lists come the smallest
 * crops, by every sum of sides, and every 3 by 3 square at the seam of two words.
 */
#include "chance.h"
#include "compare.h"
#include "lent.h"

#include <stdio.h>
#include <stdlib.h>
#include <string.h>

enum {
    LISTS = 24000,
    MOST_CALLS = 8,
    LARGE = 100,  /* one list in so many may be as high as a crop can be */
    BAD = 12,     /* one argument in so many is a bad one */
    SMALLEST = 9, /* pixels that the smallest crops have at most */
    WORD = 64     /* pixels of a word */
};

/* Widths and iterations that have to come up. */
static const size_t widths[] = {1, 2, 3, 4, 5, 6, 7, 8, 63, 64, 65, 127, 128, 129, 192, 193, 255, 256};
static const size_t iterations[] = {0, 1, 2, 3, 7, 65535};

enum { WIDTHS = sizeof widths / sizeof *widths, ITERATIONS = sizeof iterations / sizeof *iterations };

/* Wrong words that have to come up. */
enum wrong {
    ONE_LESS,
    ONE_MORE,
    WORDS_OF_63,  /* as many as rows of 63 pixels a word would take */
    ROUNDED_DOWN, /* without the last word of each row */
    NO_WORDS,
    FIRST_UNUSED_BIT,
    LAST_BIT,
    SOME_UNUSED_BIT,
    WRONGS,
    RIGHT = WRONGS
};

static const char *const wrong_names[WRONGS] = {
    [ONE_LESS] = "one word less", [ONE_MORE] = "one word more", [WORDS_OF_63] = "words of 63 pixels",
    [ROUNDED_DOWN] = "no last words", [NO_WORDS] = "no words", [FIRST_UNUSED_BIT] = "the first unused bit",
    [LAST_BIT] = "the last bit", [SOME_UNUSED_BIT] = "some unused bit",
};

/* Accepted operations of a width that changed something, those of a number of iterations, refused wrong words. */
static unsigned long met_widths[WIDTHS], met_iterations[ITERATIONS], met_wrongs[WRONGS];

/* What the calls of a list have in common. The words are those that the last call left. */
struct list {
    size_t width, height;
    enum wrong wrong; /* of the words */
};

static size_t pixels(const struct list *list)
{
    return list->width * list->height;
}

static size_t row_words(const struct list *list)
{
    return (list->width + WORD - 1) / WORD;
}

static size_t word_count(const struct list *list)
{
    return list->height * row_words(list);
}

/* ---- images and words of the reference's side */

static void pack_plainly(const struct list *list, uint8_t *image)
{
    struct call pack = {.kind = PACK_WORDS, .width = list->width, .height = list->height, .image = image,
                        .image_len = pixels(list), .words = plain_words(), .words_len = word_count(list)};
    plain_call(&pack);
}

static void unpack_plainly(const struct list *list, uint8_t *image)
{
    struct call unpack = {.kind = UNPACK_WORDS, .width = list->width, .height = list->height, .image = image,
                          .image_len = pixels(list), .words = plain_words(), .words_len = word_count(list)};
    plain_call(&unpack);
}

static void lend_packed(const struct list *list, uint8_t *image)
{
    lend(WORDS, word_count(list));
    pack_plainly(list, image);
    hand_over(WORDS);
}

static void lend_image(const struct list *list, const uint8_t *image)
{
    lend(IMAGE, pixels(list));
    memcpy(plain_bytes(IMAGE), image, pixels(list));
    hand_over(IMAGE);
}

/* ---- wrong words */

static size_t wrong_word_count(const struct list *list, enum wrong wrong)
{
    switch (wrong) {
    case ONE_LESS:
        return word_count(list) - 1;
    case ONE_MORE:
        return word_count(list) + 1;
    case WORDS_OF_63:
        return list->height * ((list->width + 62) / 63);
    case ROUNDED_DOWN:
        return list->height * (list->width / WORD);
    default:
        return 0;
    }
}

static void set_unused_bit(const struct list *list, enum wrong wrong)
{
    size_t first = list->width % WORD;
    size_t bit = wrong == FIRST_UNUSED_BIT ? first : wrong == LAST_BIT ? WORD - 1 : between(first, WORD - 1);
    plain_words()[row_words(list) * (1 + below(list->height)) - 1] |= UINT64_C(1) << (WORD - 1 - bit);
    hand_over(WORDS);
}

/* Seldom leaves the words right: some widths have no unused bits, or as many words of 63 pixels as of 64. */
static enum wrong spoil_words(const struct list *list)
{
    enum wrong wrong = (enum wrong)below(WRONGS);
    if (wrong >= FIRST_UNUSED_BIT) {
        if (list->width % WORD == 0)
            return RIGHT;
        set_unused_bit(list, wrong);
        return wrong;
    }
    if (wrong_word_count(list, wrong) == word_count(list))
        return RIGHT;
    lend(WORDS, wrong_word_count(list, wrong));
    return wrong;
}

/* ---- the calls */

static void draw_packed_size(struct list *list)
{
    list->width = one_in(4) ? between(1, MAX_SIDE) : widths[below(WIDTHS)];
    list->height = between(1, one_in(LARGE) ? MAX_SIDE : one_in(4) ? 12 : 4);
}

static void draw_words(struct list *list)
{
    static uint8_t image[MAX_PIXELS];
    draw_image(image, list->width, list->height);
    lend_packed(list, image);
    list->wrong = RIGHT;
}

/* The words as the last call left them, or others where those were wrong. */
static void prepare_words(struct list *list)
{
    if (list->wrong != RIGHT || one_in(3))
        draw_words(list);
    if (one_in(BAD))
        list->wrong = spoil_words(list);
}

static void prepare_image(const struct list *list)
{
    static uint8_t image[MAX_PIXELS];
    draw_image(image, list->width, list->height);
    if (one_in(BAD))
        draw_bad_pixel(image, pixels(list));
    lend_image(list, image);
    if (one_in(BAD))
        lend(IMAGE, draw_bad_length(pixels(list)));
}

static void prepare_buffers(struct list *list, enum kind kind)
{
    if (kind == PACK_WORDS) {
        prepare_image(list);
        lend(WORDS, word_count(list));
        list->wrong = one_in(BAD) ? spoil_words(list) : RIGHT;
        return;
    }
    prepare_words(list);
    if (kind == UNPACK_WORDS)
        lend(IMAGE, one_in(BAD) ? draw_bad_length(pixels(list)) : pixels(list));
}

static uint16_t draw_listed_iterations(void)
{
    return (uint16_t)(one_in(8) ? below(65536) : iterations[below(ITERATIONS)]);
}

static struct call draw_call(struct list *list)
{
    static const enum kind kinds[] = {ERODE_WORDS, ERODE_WORDS_BY_SIDES, DILATE_WORDS, ERODE_WORDS,
                                      ERODE_WORDS_BY_SIDES, DILATE_WORDS, PACK_WORDS, UNPACK_WORDS};
    struct call call = {.kind = kinds[below(sizeof kinds / sizeof *kinds)]};
    prepare_buffers(list, call.kind);
    call.width = one_in(2 * BAD) ? draw_bad_side(list->width) : list->width;
    call.height = one_in(2 * BAD) ? draw_bad_side(list->height) : list->height;
    call.connectivity = one_in(BAD) ? draw_byte() : one_in(2) ? 4 : 8;
    call.border_value = (uint8_t)(one_in(BAD) ? between(2, UINT8_MAX) : below(2));
    call.sides = (uint8_t)(one_in(BAD) ? between(ALL_SIDES + 1, UINT8_MAX) : below(ALL_SIDES + 1));
    call.iterations = draw_listed_iterations();
    return call;
}

/* ---- the same by bytes */

struct answer {
    uint32_t counts[3];
    uint8_t image[MAX_PIXELS];
};

static size_t count_object(const struct list *list, const uint8_t *image)
{
    size_t area = 0;
    for (size_t at = 0; at < pixels(list); at++)
        area += image[at] == 1;
    return area;
}

/* Has the image's contour put into the queue; tells its length. */
static size_t find_contour(struct call call)
{
    call.kind = SCAN;
    try_call(&call);
    return contour_told(SCAN);
}

static void check_by_bytes(const struct list *list, const struct call *bytes, const struct answer *answer)
{
    if (try_call(bytes) != ACCEPTED)
        fail(bytes, "refused, and accepted by words");
    const uint32_t *counts = plain_numbers(COUNTS);
    if (counts[0] != answer->counts[0] || counts[1] != answer->counts[1])
        fail(bytes, "changed %u used %u, by words %u %u", (unsigned)counts[0], (unsigned)counts[1],
             (unsigned)answer->counts[0], (unsigned)answer->counts[1]);
    if (memcmp(plain_bytes(IMAGE), answer->image, pixels(list)) != 0)
        fail(bytes, "the image, from that of the words");
}

/* try_call has found the library's words and counts equal to the reference's, so those are compared. */
static void check_operation(const struct list *list, const struct call *call, const uint8_t *before)
{
    static struct answer answer;
    struct call bytes = *call;
    bytes.kind = call->kind == ERODE_WORDS ? ERODE : call->kind == DILATE_WORDS ? DILATE : ERODE_BY_SIDES;
    memcpy(answer.counts, plain_numbers(COUNTS), sizeof answer.counts);
    unpack_plainly(list, answer.image);
    if (count_object(list, answer.image) != answer.counts[2])
        fail(call, "area %u of %zu object pixels", (unsigned)answer.counts[2], count_object(list, answer.image));
    lend_image(list, before);
    lend(QUEUE, pixels(list));
    bytes.start = BY_SCAN;
    check_by_bytes(list, &bytes, &answer);
    lend_image(list, before);
    bytes.start = find_contour(bytes);
    check_by_bytes(list, &bytes, &answer);
}

/* ---- there and back */

static void unpack_again(const struct list *list, struct call call)
{
    static uint8_t image[MAX_PIXELS];
    memcpy(image, plain_bytes(IMAGE), pixels(list));
    lend(IMAGE, pixels(list));
    call.kind = UNPACK_WORDS;
    if (try_call(&call) != ACCEPTED || memcmp(image, plain_bytes(IMAGE), pixels(list)) != 0)
        fail(&call, "the image, packed and unpacked");
}

static void pack_again(const struct list *list, struct call call)
{
    static uint64_t words[MAX_WORDS];
    memcpy(words, plain_words(), word_count(list) * sizeof *words);
    lend(WORDS, word_count(list));
    call.kind = PACK_WORDS;
    if (try_call(&call) != ACCEPTED || memcmp(words, plain_words(), word_count(list) * sizeof *words) != 0)
        fail(&call, "the words, unpacked and packed");
}

/* ---- lists */

static void count_met(const struct list *list, const struct call *call, size_t result)
{
    if (list->wrong != RIGHT && result == (list->wrong < FIRST_UNUSED_BIT ? BAD_LENGTH : UNUSED_BIT_SET))
        met_wrongs[list->wrong]++;
    if (result != ACCEPTED || call->kind > DILATE_WORDS)
        return;
    for (size_t k = 0; k < WIDTHS; k++)
        met_widths[k] += widths[k] == list->width && plain_numbers(COUNTS)[0] > 0;
    for (size_t k = 0; k < ITERATIONS; k++)
        met_iterations[k] += iterations[k] == call->iterations;
}

static void run_list(void)
{
    static uint8_t before[MAX_PIXELS];
    struct list list = {.wrong = RIGHT};
    draw_packed_size(&list);
    draw_words(&list);
    for (size_t left = between(1, MOST_CALLS); left > 0; left--) {
        struct call call = draw_call(&list);
        if (list.wrong == RIGHT)
            unpack_plainly(&list, before);
        size_t result = try_call(&call);
        count_met(&list, &call, result);
        if (result != ACCEPTED && call.kind == PACK_WORDS)
            draw_words(&list);
        if (result != ACCEPTED)
            continue;
        if (call.kind == PACK_WORDS)
            unpack_again(&list, call);
        else if (call.kind == UNPACK_WORDS)
            pack_again(&list, call);
        else
            check_operation(&list, &call, before);
    }
}

/* ---- the smallest crops, and squares at the seam */

static void try_on(const struct list *list, struct call call, uint8_t *image)
{
    call.width = list->width;
    call.height = list->height;
    lend_packed(list, image);
    try_call(&call);
}

/* By either connectivity: dilation, erosion with either border value and erosion by every sum of sides. */
static void try_all_operations(const struct list *list, uint8_t *image, uint16_t times)
{
    struct call call = {.iterations = times};
    for (call.connectivity = 4; call.connectivity <= 8; call.connectivity += 4) {
        call.kind = DILATE_WORDS;
        try_on(list, call, image);
        call.kind = ERODE_WORDS;
        for (call.border_value = 0; call.border_value <= 1; call.border_value++)
            try_on(list, call, image);
        call.kind = ERODE_WORDS_BY_SIDES;
        for (call.sides = 0; call.sides <= ALL_SIDES; call.sides++)
            try_on(list, call, image);
    }
}

static void try_smallest_crop(const struct list *list, unsigned bits)
{
    uint8_t image[SMALLEST];
    for (size_t at = 0; at < pixels(list); at++)
        image[at] = (bits >> at) & 1;
    for (uint16_t times = 0; times <= 3; times++)
        try_all_operations(list, image, times);
}

static void try_smallest_crops(void)
{
    struct list list;
    for (list.width = 1; list.width <= SMALLEST; list.width++)
        for (list.height = 1; pixels(&list) <= SMALLEST; list.height++)
            for (unsigned bits = 0; bits < 1u << pixels(&list); bits++)
                try_smallest_crop(&list, bits);
}

/* The square's first column is the last but one or the last of the first word; all else has one value. */
static void try_square(unsigned bits, size_t left, uint8_t value)
{
    static uint8_t image[MAX_PIXELS];
    const struct list list = {.width = WORD + 3, .height = 3};
    memset(image, value, pixels(&list));
    for (size_t k = 0; k < 9; k++)
        image[k / 3 * list.width + left + k % 3] = (bits >> k) & 1;
    try_all_operations(&list, image, 1);
}

static void try_squares(void)
{
    for (unsigned bits = 0; bits < 1u << 9; bits++)
        for (size_t left = WORD - 2; left < WORD; left++)
            for (uint8_t value = 0; value <= 1; value++)
                try_square(bits, left, value);
}

/* ---- what was met */

static bool check_numbers_met(const char *name, const size_t *numbers, const unsigned long *met, size_t count)
{
    bool good = true;
    for (size_t k = 0; k < count; k++) {
        if (met[k] > 0)
            continue;
        fprintf(stderr, "%s %zu never came up\n", name, numbers[k]);
        good = false;
    }
    return good;
}

static bool check_wrongs_met(void)
{
    bool good = true;
    for (enum wrong wrong = 0; wrong < WRONGS; wrong++) {
        if (met_wrongs[wrong] > 0)
            continue;
        fprintf(stderr, "%s: never refused\n", wrong_names[wrong]);
        good = false;
    }
    return good;
}

static bool check_all_met(void)
{
    bool good = check_numbers_met("a change in width", widths, met_widths, WIDTHS);
    good = check_numbers_met("iterations", iterations, met_iterations, ITERATIONS) && good;
    return check_wrongs_met() && good;
}

static void print_met(void)
{
    printf("packed: changes by width");
    for (size_t k = 0; k < WIDTHS; k++)
        printf(" %zu: %lu", widths[k], met_widths[k]);
    printf("; iterations");
    for (size_t k = 0; k < ITERATIONS; k++)
        printf(" %zu: %lu", iterations[k], met_iterations[k]);
    printf("; refused for");
    for (size_t k = 0; k < WRONGS; k++)
        printf("%s %s: %lu", k == 0 ? "" : ",", wrong_names[k], met_wrongs[k]);
    printf("\n");
}

int main(int argc, char **argv)
{
    begin_test(argc, argv, "list");
    try_smallest_crops();
    try_squares();
    for (size_t left = LISTS; left > 0; left--) {
        begin_unit();
        run_list();
    }
    print_met();
    end_test(ERODE_WORDS, UNPACK_WORDS);
    return check_all_met() ? 0 : 1;
}
