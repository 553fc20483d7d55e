/*
 * random_calls.c: random lists of calls, made of the library and of the reference side by side.
 *
 *     random_calls [seed]
 *
 * A list is some calls, one after another, on one size, one image and one queue, wrong ones too. In half of
 * the lists nobody but the calls writes the queue; in the others contours are put there between the calls,
 * good ones and bad ones. Before the lists the smallest crops are eroded by every sum of sides, and crops are
 * propagated along winding paths.
 */
#include "chance.h"
#include "compare.h"
#include "lent.h"

#include <string.h>

enum {
    LISTS = 150000,
    MOST_CALLS = 20,
    LARGE = 120,         /* one list in so many has a large crop */
    BAD = 14,            /* one argument in so many is a bad one */
    MOST_CHAINED = 6000, /* records from elsewhere: deeper chains than a labelling gives */
    SMALLEST = 9,        /* pixels that the smallest crops have at most */
    PATHS = 3000,        /* lists of propagations along winding paths */
    WIDEST_PATH = 36     /* columns and rows of such a crop, at most */
};

/* What the calls of a list have in common. call.width and call.height may be bad, width and height are the
 * size that the buffers were drawn for. */
struct list {
    struct call call;
    size_t width, height;
    bool begun;         /* a call has been made */
    bool untouched;     /* nobody but the calls writes the queue from then on */
    size_t contour_len; /* as the last accepted operation or scan told */
    size_t components;  /* as the last accepted labelling told */
};

static size_t pixels(const struct list *list)
{
    return list->width * list->height;
}

/* ---- what is lent for a whole list */

static void spoil_list(struct list *list)
{
    if (one_in(3))
        list->call.width = draw_bad_side(list->width);
    if (one_in(3))
        list->call.height = draw_bad_side(list->height);
    if (one_in(3))
        lend(IMAGE, draw_bad_length(pixels(list)));
    if (one_in(3))
        lend(QUEUE, below(pixels(list)));
    if (one_in(3))
        draw_bad_pixel(plain_bytes(IMAGE), lent_len(IMAGE));
}

static struct list draw_list(void)
{
    struct list list = {.untouched = one_in(2)};
    draw_size(LARGE, &list.width, &list.height);
    list.call.width = list.width;
    list.call.height = list.height;
    lend(IMAGE, pixels(&list));
    draw_image(plain_bytes(IMAGE), list.width, list.height);
    lend(QUEUE, pixels(&list) + (one_in(2) ? between(1, 40) : 0));
    if (one_in(8))
        spoil_list(&list);
    hand_over(IMAGE);
    return list;
}

/* ---- contours handed in */

/* Puts an image's contour at the front of the reference's queue and tells its length. */
static size_t put_contour(const struct list *list, uint8_t *image)
{
    uint32_t len, blank_rows;
    struct call scan = list->call;
    lend_all(&scan, PLAIN);
    scan.kind = SCAN;
    scan.image = image;
    scan.scanned_len = &len;
    scan.blank_rows = &blank_rows;
    plain_call(&scan);
    return len;
}

static void shuffle(uint16_t *queue, size_t len)
{
    for (size_t k = 1; k < len; k++) {
        size_t other = below(k + 1);
        uint16_t at = queue[k];
        queue[k] = queue[other];
        queue[other] = at;
    }
}

/* Makes a contour bad, seldom leaves it good by chance; tells the length to hand in. */
static size_t spoil_contour(const struct list *list, uint16_t *queue, size_t len)
{
    uint16_t inside = (uint16_t)below(pixels(list));
    uint16_t anywhere = (uint16_t)below(MAX_PIXELS);
    if (len == 0)
        return 1;
    switch (below(len < lent_len(QUEUE) ? 6 : 4)) {
    case 0:
        return len - 1;
    case 1:
        queue[below(len)] = queue[below(len)];
        return len;
    case 2:
        queue[below(len)] = inside;
        return len;
    case 3:
        queue[below(len)] = anywhere;
        return len;
    case 4:
        queue[len] = queue[below(len)];
        return len + 1;
    default:
        queue[len] = one_in(2) ? inside : anywhere;
        return len + 1;
    }
}

/* Puts a contour into the queue and tells the length to hand in. */
static size_t prepare_queue(const struct list *list)
{
    static uint8_t other_image[MAX_PIXELS];
    uint16_t *queue = plain_queue();
    bool other = one_in(8);
    if (lent_len(QUEUE) < pixels(list) || lent_len(IMAGE) != pixels(list))
        return below(lent_len(QUEUE) + 1);
    if (other)
        draw_image(other_image, list->width, list->height);
    size_t len = put_contour(list, other ? other_image : plain_bytes(IMAGE));
    if (one_in(2))
        draw_bytes((uint8_t *)(queue + len), (lent_len(QUEUE) - len) * sizeof *queue);
    shuffle(queue, len);
    if (one_in(2))
        len = spoil_contour(list, queue, len);
    hand_over(QUEUE);
    return len;
}

static size_t draw_bad_start(const struct list *list)
{
    const size_t starts[] = {0, list->contour_len + 1, below(lent_len(QUEUE) + 1), lent_len(QUEUE),
                             lent_len(QUEUE) + 1, 65536 + list->contour_len,
                             ((size_t)1 << 32) + list->contour_len, BY_SCAN - 1};
    return starts[below(sizeof starts / sizeof *starts)];
}

static size_t draw_start(const struct list *list)
{
    if (!(list->begun && list->untouched) && one_in(3))
        return prepare_queue(list);
    if (one_in(BAD))
        return draw_bad_start(list);
    return one_in(2) ? BY_SCAN : list->contour_len;
}

/* ---- the calls */

static void draw_mask(const struct list *list)
{
    static uint8_t image[MAX_PIXELS];
    bool with_image = one_in(3) && lent_len(IMAGE) == pixels(list);
    lend(MASK, pixels(list));
    draw_image(image, list->width, list->height);
    for (size_t at = 0; at < pixels(list); at++)
        plain_bytes(MASK)[at] = image[at] == 1 || (with_image && plain_bytes(IMAGE)[at] == 1);
    if (one_in(BAD))
        draw_bad_pixel(plain_bytes(MASK), lent_len(MASK));
    hand_over(MASK);
    if (one_in(BAD))
        lend(MASK, draw_bad_length(pixels(list)));
}

/* Too few, just enough or more, if the image is still as labelled last. No crop has more components than half
 * its pixels, rounded up. */
static size_t draw_records_len(const struct list *list)
{
    size_t needed = RECORD * list->components;
    size_t enough = RECORD * (pixels(list) / 2 + 1);
    switch (below(6)) {
    case 0:
        return needed;
    case 1:
        return needed > 0 ? needed - 1 : 0;
    case 2:
        return needed + below(30);
    case 3:
        return below(enough);
    default:
        return enough + below(30);
    }
}

static void draw_label_buffers(const struct list *list)
{
    lend(COMPONENTS, one_in(BAD) ? draw_bad_length(pixels(list)) : pixels(list));
    lend(HOLES, one_in(BAD) ? draw_bad_length(pixels(list)) : pixels(list));
    lend(RECORDS, draw_records_len(list));
}

/* All bytes come up, since what is lent is junk. Where both lengths are bad, they are the same. */
static void draw_widened_maps(const struct list *list)
{
    size_t bad = draw_bad_length(pixels(list));
    lend(BYTES, one_in(BAD) ? bad : pixels(list));
    lend(COMPONENTS, one_in(BAD) ? bad : pixels(list));
}

/* Records from elsewhere: long chains of parents, some parents not below their component. */
static void draw_chains(void)
{
    uint32_t *records = plain_numbers(RECORDS);
    bool longer = one_in(20);
    lend(RECORDS, below(longer ? RECORD * MOST_CHAINED : 400));
    for (size_t p = 1; RECORD * p <= lent_len(RECORDS); p++)
        records[RECORD * p - 1] = (uint32_t)(one_in(longer ? 10000 : 2) ? below(p + 2) : p - 1);
    hand_over(RECORDS);
}

static uint32_t draw_component(void)
{
    /* Ten times all but the last is small in 32 bits. */
    const uint32_t large[] = {429496730, 429496732, 858993462, UINT32_MAX};
    if (one_in(6))
        return large[below(sizeof large / sizeof *large)];
    return (uint32_t)below(lent_len(RECORDS) / RECORD + 3);
}

static void draw_seed(const struct list *list, struct call *call)
{
    call->x = (uint16_t)below(list->width);
    call->y = (uint16_t)below(list->height);
    if (one_in(BAD))
        call->x = (uint16_t)(one_in(3) ? 65535 : list->width + below(3));
    if (one_in(BAD))
        call->y = (uint16_t)(one_in(3) ? 65535 : list->height + below(3));
}

static enum kind draw_kind(void)
{
    static const enum kind kinds[] = {ERODE, ERODE_BY_SIDES, DILATE, PROPAGATE, FLOOD_FILL, CLEAR_BORDER,
                                      SCAN, CONTOUR, LABEL, DEPTH, WIDEN};
    return kinds[below(sizeof kinds / sizeof *kinds)];
}

/* A bad sum is the first, the last or any. */
static uint8_t draw_sides(void)
{
    const size_t bad[] = {ALL_SIDES + 1, UINT8_MAX, between(ALL_SIDES + 1, UINT8_MAX)};
    return (uint8_t)(one_in(BAD) ? bad[below(sizeof bad / sizeof *bad)] : below(ALL_SIDES + 1));
}

static struct call draw_call(const struct list *list)
{
    struct call call = list->call;
    call.kind = draw_kind();
    call.connectivity = one_in(BAD) ? draw_byte() : one_in(2) ? 4 : 8;
    call.border_value = (uint8_t)(one_in(BAD) ? between(2, 255) : below(2));
    call.sides = draw_sides();
    call.iterations = draw_iterations();
    call.contour_len = one_in(2) ? list->contour_len : draw_bad_start(list);
    draw_seed(list, &call);
    if (call.kind < SCAN)
        call.start = draw_start(list);
    if (call.kind == PROPAGATE)
        draw_mask(list);
    if (call.kind == LABEL)
        draw_label_buffers(list);
    if (call.kind == WIDEN)
        draw_widened_maps(list);
    if (call.kind == DEPTH && one_in(2))
        draw_chains();
    call.component = draw_component();
    return call;
}

/* The erosion that was just made, again by no side in place of border value 0 or by all in place of 1. It must
 * give the same. try_call has found the library's answers equal to the reference's, so those are compared. */
static void erode_again(const struct list *list, const struct call *call, size_t result)
{
    static uint8_t image[MAX_PIXELS];
    static uint16_t queue[MAX_PIXELS];
    uint32_t counts[3];
    struct call again = *call;
    size_t len = result == ACCEPTED ? pixels(list) : 0;
    again.kind = ERODE_BY_SIDES;
    again.sides = call->border_value == 0 ? 0 : ALL_SIDES;
    memcpy(image, plain_bytes(IMAGE), len);
    memcpy(queue, plain_queue(), len * sizeof *queue);
    memcpy(counts, plain_numbers(COUNTS), sizeof counts);
    put_back(IMAGE);
    put_back(QUEUE);
    if (try_call(&again) != result || memcmp(counts, plain_numbers(COUNTS), sizeof counts) != 0)
        fail(&again, "the reply, from that of border value %d", call->border_value);
    if (memcmp(image, plain_bytes(IMAGE), len) != 0 || memcmp(queue, plain_queue(), len * sizeof *queue) != 0)
        fail(&again, "the image or the contour, from that of border value %d", call->border_value);
}

/* The labelling that was just accepted, again with just enough record entries or with one less. */
static void label_again(const struct list *list, const struct call *call)
{
    size_t needed = RECORD * list->components;
    bool short_of_one = needed > 0 && one_in(2);
    lend(RECORDS, short_of_one ? needed - 1 : needed);
    size_t refusal = try_call(call);
    if (refusal != (short_of_one ? TOO_FEW_RECORDS : ACCEPTED))
        fail(call, "refusal %zu with %zu record entries, where %zu are needed", refusal, lent_len(RECORDS), needed);
}

/* Most lists end where the image has come to a single value, since little happens from there on. */
static void run_list(void)
{
    struct list list = draw_list();
    bool ended = false;
    for (size_t left = between(1, MOST_CALLS); left > 0 && !ended; left--) {
        struct call call = draw_call(&list);
        list.begun = true;
        size_t result = try_call(&call);
        if (call.kind == ERODE && call.border_value <= 1 && one_in(4))
            erode_again(&list, &call, result);
        if (result != ACCEPTED)
            continue;
        if (call.kind <= SCAN) {
            list.contour_len = contour_told(call.kind);
            ended = list.contour_len == 0 && !one_in(4);
        } else if (call.kind == LABEL) {
            list.components = plain_numbers(COUNTS)[0];
            if (one_in(4))
                label_again(&list, &call);
        }
    }
}

/* ---- the smallest crops */

/* Lends an image that has a bit for each pixel, and a queue. */
static void lend_bits(const struct call *call, unsigned bits)
{
    size_t len = call->width * call->height;
    lend(QUEUE, len);
    lend(IMAGE, len);
    for (size_t at = 0; at < len; at++)
        plain_bytes(IMAGE)[at] = (bits >> at) & 1;
    hand_over(IMAGE);
}

static void try_from_scan(struct call call, unsigned bits)
{
    lend_bits(&call, bits);
    call.start = BY_SCAN;
    try_call(&call);
}

static void try_from_contour(struct call call, unsigned bits)
{
    struct call scan = call;
    lend_bits(&call, bits);
    scan.kind = SCAN;
    try_call(&scan);
    call.start = contour_told(SCAN);
    try_call(&call);
}

static void erode_by_all_sides(size_t width, size_t height, unsigned bits)
{
    struct call call = {.kind = ERODE_BY_SIDES, .width = width, .height = height, .iterations = 1};
    for (unsigned sides = 0; sides <= ALL_SIDES; sides++) {
        call.sides = (uint8_t)sides;
        for (call.connectivity = 4; call.connectivity <= 8; call.connectivity += 4) {
            try_from_scan(call, bits);
            try_from_contour(call, bits);
        }
    }
}

static void erode_smallest_crops(void)
{
    for (size_t width = 1; width <= SMALLEST; width++)
        for (size_t height = 1; width * height <= SMALLEST; height++)
            for (unsigned bits = 0; bits < 1u << (width * height); bits++)
                erode_by_all_sides(width, height, bits);
}

/* ---- winding paths */

/* Propagates along a winding path from a few pixels, on words at first and then by the queue, and goes on along
 * another one from the contour that is left. */
static void propagate_along_paths(void)
{
    struct call call = {.kind = PROPAGATE, .width = between(1, WIDEST_PATH), .height = between(1, WIDEST_PATH),
                        .start = BY_SCAN};
    size_t len = call.width * call.height;
    lend(QUEUE, len);
    lend(IMAGE, len);
    memset(plain_bytes(IMAGE), 0, len);
    for (size_t seeds = between(1, 3); seeds > 0; seeds--)
        plain_bytes(IMAGE)[below(len)] = 1;
    hand_over(IMAGE);
    for (size_t left = between(1, 3); left > 0; left--) {
        call.connectivity = one_in(2) ? 4 : 8;
        call.iterations = (uint16_t)(one_in(2) ? between(1, 200) : 65535);
        lend(MASK, len);
        draw_path(plain_bytes(MASK), call.width, call.height);
        hand_over(MASK);
        try_call(&call);
        call.start = one_in(2) ? BY_SCAN : contour_told(PROPAGATE);
    }
}

int main(int argc, char **argv)
{
    begin_test(argc, argv, "list");
    erode_smallest_crops();
    for (size_t left = PATHS; left > 0; left--) {
        begin_unit();
        propagate_along_paths();
    }
    for (size_t left = LISTS; left > 0; left--) {
        begin_unit();
        run_list();
    }
    end_test(ERODE, WIDEN);
    return 0;
}
