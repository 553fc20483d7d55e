/*
 * reference.c: the simple whole-image program of reference.h.
 */
#include "reference.h"

#include <limits.h>
#include <stdbool.h>
#include <stdio.h>
#include <string.h>

#define OUTSIDE SIZE_MAX

enum {
    LONGEST_LINE = 126, /* `part` and eleven numbers of 32 bits */
    MAX_LISTING = LONGEST_LINE * (2 + MAX_STEPS + LANE_RECORDS)
};

/* ---- the crop */

static size_t pixels(const struct call *call)
{
    return call->width * call->height;
}

/* Left, right, above, below, then the diagonals: by 4 the first four count. */
static const int offsets[8][2] = {{-1, 0}, {1, 0}, {0, -1}, {0, 1}, {-1, -1}, {1, -1}, {-1, 1}, {1, 1}};

static size_t neighbour(const struct call *call, size_t at, unsigned n)
{
    int width = (int)call->width;
    int height = (int)call->height;
    int x = (int)at % width + offsets[n][0];
    int y = (int)at / width + offsets[n][1];
    return x < 0 || y < 0 || x >= width || y >= height ? OUTSIDE : (size_t)(y * width + x);
}

static bool has_neighbour(const struct call *call, const uint8_t *image, size_t at, unsigned connectivity,
                          uint8_t value, uint8_t outside)
{
    for (unsigned n = 0; n < connectivity; n++) {
        size_t next = neighbour(call, at, n);
        if ((next == OUTSIDE ? outside : image[next]) == value)
            return true;
    }
    return false;
}

/* The sum of the sides that the place x, y lies beyond; 0 inside the crop. */
static unsigned sides_beyond(const struct call *call, int x, int y)
{
    unsigned beyond = 0;
    if (y < 0)
        beyond += TOP_SIDE;
    if (x >= (int)call->width)
        beyond += RIGHT_SIDE;
    if (y >= (int)call->height)
        beyond += BOTTOM_SIDE;
    if (x < 0)
        beyond += LEFT_SIDE;
    return beyond;
}

/* An outside place is object only if each side that it lies beyond is named. */
static bool has_background_by_sides(const struct call *call, const uint8_t *image, size_t at)
{
    for (unsigned n = 0; n < call->connectivity; n++) {
        int x = (int)(at % call->width) + offsets[n][0];
        int y = (int)(at / call->width) + offsets[n][1];
        unsigned beyond = sides_beyond(call, x, y);
        bool object = beyond == 0 ? image[(size_t)y * call->width + (size_t)x] == 1
                                  : (beyond & call->sides) == beyond;
        if (!object)
            return true;
    }
    return false;
}

static bool on_border(const struct call *call, size_t at)
{
    size_t x = at % call->width;
    size_t y = at / call->width;
    return x == 0 || y == 0 || x == call->width - 1 || y == call->height - 1;
}

static bool on_contour(const struct call *call, size_t at)
{
    return call->image[at] == 1 && has_neighbour(call, call->image, at, 4, 0, 1);
}

/* ---- refusals of calls */

static bool bad_size(const struct call *call)
{
    return call->width < 1 || call->width > MAX_SIDE || call->height < 1 || call->height > MAX_SIDE;
}

static bool bad_pixel(const uint8_t *image, size_t len)
{
    for (size_t at = 0; at < len; at++)
        if (image[at] > 1)
            return true;
    return false;
}

static enum refusal judge_buffers(const struct call *call)
{
    bool masked = call->kind == PROPAGATE;
    bool labels = call->kind == LABEL;
    if (bad_size(call))
        return BAD_SIZE;
    size_t needed = pixels(call);
    if (call->image_len != needed || (masked && call->mask_len != needed)
        || (labels && (call->components_len != needed || call->holes_len != needed)))
        return BAD_LENGTH;
    if (call->queue_len < needed)
        return QUEUE_TOO_SHORT;
    if (bad_pixel(call->image, needed) || (masked && bad_pixel(call->mask, needed)))
        return BAD_PIXEL;
    return ACCEPTED;
}

static enum refusal judge_operation(const struct call *call)
{
    if (call->connectivity != 4 && call->connectivity != 8)
        return BAD_CONNECTIVITY;
    if (call->kind == ERODE && call->border_value > 1)
        return BAD_BORDER_VALUE;
    if (call->kind == ERODE_BY_SIDES && call->sides > ALL_SIDES)
        return BAD_BORDER_VALUE;
    if (call->kind == FLOOD_FILL && (call->x >= call->width || call->y >= call->height))
        return SEED_OUTSIDE;
    return ACCEPTED;
}

static enum refusal judge_contour(const struct call *call)
{
    static bool missing[MAX_PIXELS];
    if (call->start == BY_SCAN)
        return ACCEPTED;
    if (call->start > call->queue_len)
        return WRONG_CONTOUR;
    for (size_t at = 0; at < pixels(call); at++)
        missing[at] = on_contour(call, at);
    for (size_t k = 0; k < call->start; k++) {
        size_t at = call->queue[k];
        if (at >= pixels(call) || !missing[at])
            return WRONG_CONTOUR;
        missing[at] = false;
    }
    for (size_t at = 0; at < pixels(call); at++)
        if (missing[at])
            return WRONG_CONTOUR;
    return ACCEPTED;
}

/* ---- the operations */

static uint8_t pixel_after(const struct call *call, const uint8_t *before, size_t at)
{
    if (call->kind == ERODE)
        return before[at] == 1 && !has_neighbour(call, before, at, call->connectivity, 0, call->border_value);
    if (call->kind == ERODE_BY_SIDES)
        return before[at] == 1 && !has_background_by_sides(call, before, at);
    bool dilated = before[at] == 1 || has_neighbour(call, before, at, call->connectivity, 1, 0);
    return dilated && (call->kind == DILATE || call->mask[at] == 1);
}

/* Tells whether anything changed. */
static bool iterate_once(const struct call *call, uint8_t *image)
{
    static uint8_t before[MAX_PIXELS];
    memcpy(before, image, pixels(call));
    for (size_t at = 0; at < pixels(call); at++)
        image[at] = pixel_after(call, before, at);
    return memcmp(before, image, pixels(call)) != 0;
}

/* Once an iteration changes nothing, no later one does. */
static void iterate(const struct call *call)
{
    unsigned left = call->iterations;
    while (left > 0 && iterate_once(call, call->image))
        left--;
}

static uint32_t fewest_iterations(const struct call *call, const uint8_t *before)
{
    static uint8_t trial[MAX_PIXELS];
    uint32_t used = 0;
    memcpy(trial, before, pixels(call));
    while (memcmp(trial, call->image, pixels(call)) != 0) {
        iterate_once(call, trial);
        used++;
    }
    return used;
}

/* Numbers the pixels linked to `from` in the map, where 0 is no number yet. */
static void flood(const struct call *call, size_t from, unsigned connectivity, unsigned number, unsigned *map)
{
    static size_t waiting[MAX_PIXELS];
    size_t count = 0;
    waiting[count++] = from;
    map[from] = number;
    while (count > 0) {
        size_t at = waiting[--count];
        for (unsigned n = 0; n < connectivity; n++) {
            size_t next = neighbour(call, at, n);
            if (next == OUTSIDE || call->image[next] != call->image[from] || map[next] != 0)
                continue;
            map[next] = number;
            waiting[count++] = next;
        }
    }
}

static void paint(const struct call *call, const unsigned *map, uint8_t value)
{
    for (size_t at = 0; at < pixels(call); at++)
        if (map[at] != 0)
            call->image[at] = value;
}

static void fill(const struct call *call)
{
    static unsigned map[MAX_PIXELS];
    size_t seed = call->y * call->width + call->x;
    if (call->image[seed] == 1)
        return;
    memset(map, 0, pixels(call) * sizeof *map);
    flood(call, seed, call->connectivity, 1, map);
    paint(call, map, 1);
}

static void drop(const struct call *call)
{
    static unsigned map[MAX_PIXELS];
    memset(map, 0, pixels(call) * sizeof *map);
    for (size_t at = 0; at < pixels(call); at++)
        if (on_border(call, at) && call->image[at] == 1 && map[at] == 0)
            flood(call, at, call->connectivity, 1, map);
    paint(call, map, 0);
}

/* The contour row by row at the queue's front, zeros behind. */
static uint32_t hand_on_contour(const struct call *call)
{
    uint32_t len = 0;
    memset(call->queue, 0, call->queue_len * sizeof *call->queue);
    for (size_t at = 0; at < pixels(call); at++)
        if (on_contour(call, at))
            call->queue[len++] = (uint16_t)at;
    return len;
}

static uint32_t count_changed(const struct call *call, const uint8_t *before)
{
    uint32_t changed = 0;
    for (size_t at = 0; at < pixels(call); at++)
        changed += before[at] != call->image[at];
    return changed;
}

/* Changes the image; counts[0] is changed and counts[1] used. */
static void change_image(const struct call *call, uint32_t *counts)
{
    static uint8_t before[MAX_PIXELS];
    bool iterated = call->kind != FLOOD_FILL && call->kind != CLEAR_BORDER;
    memcpy(before, call->image, pixels(call));
    if (iterated)
        iterate(call);
    else if (call->kind == FLOOD_FILL)
        fill(call);
    else
        drop(call);
    counts[0] = count_changed(call, before);
    counts[1] = iterated ? fewest_iterations(call, before) : counts[0] > 0;
}

static void operate(const struct call *call, uint32_t *counts)
{
    change_image(call, counts);
    counts[2] = hand_on_contour(call);
}

static enum refusal call_operation(const struct call *call)
{
    memset(call->counts, 0, 3 * sizeof *call->counts);
    enum refusal refusal = judge_buffers(call);
    if (refusal == ACCEPTED)
        refusal = judge_operation(call);
    if (refusal == ACCEPTED)
        refusal = judge_contour(call);
    if (refusal == ACCEPTED)
        operate(call, call->counts);
    return refusal;
}

static bool is_blank_row(const struct call *call, size_t y)
{
    for (size_t x = 0; x < call->width; x++)
        if (call->image[y * call->width + x] == 1)
            return false;
    return true;
}

static uint32_t count_blank_rows(const struct call *call)
{
    uint32_t count = 0;
    for (size_t y = 0; y < call->height; y++)
        count += is_blank_row(call, y);
    return count;
}

static enum refusal call_scan(const struct call *call)
{
    *call->scanned_len = 0;
    *call->blank_rows = 0;
    enum refusal refusal = judge_buffers(call);
    if (refusal != ACCEPTED)
        return refusal;
    *call->scanned_len = hand_on_contour(call);
    *call->blank_rows = count_blank_rows(call);
    return ACCEPTED;
}

/* ---- packed rows */

static size_t row_words(const struct call *call)
{
    return (call->width + 63) / 64;
}

/* The word that holds column x of row y, and the place of its bit there, counted from the lowest. */
static uint64_t *word_of(const struct call *call, size_t x, size_t y)
{
    return &call->words[y * row_words(call) + x / 64];
}

static unsigned place_of(size_t x)
{
    return (unsigned)(63 - x % 64);
}

static bool bit_set(const struct call *call, size_t x, size_t y)
{
    return (*word_of(call, x, y) >> place_of(x)) % 2 == 1;
}

static bool unused_bit_set(const struct call *call)
{
    for (size_t y = 0; y < call->height; y++)
        for (size_t x = call->width; x < 64 * row_words(call); x++)
            if (bit_set(call, x, y))
                return true;
    return false;
}

static void unpack_words(const struct call *call, uint8_t *image)
{
    for (size_t at = 0; at < pixels(call); at++)
        image[at] = bit_set(call, at % call->width, at / call->width);
}

static void pack_words(const struct call *call, const uint8_t *image)
{
    memset(call->words, 0, call->words_len * sizeof *call->words);
    for (size_t at = 0; at < pixels(call); at++) {
        size_t x = at % call->width;
        *word_of(call, x, at / call->width) |= (uint64_t)image[at] << place_of(x);
    }
}

static enum refusal judge_word_count(const struct call *call)
{
    if (bad_size(call))
        return BAD_SIZE;
    return call->words_len == call->height * row_words(call) ? ACCEPTED : BAD_LENGTH;
}

/* The same operation on an image of bytes. */
static struct call unpacked_call(const struct call *call, uint8_t *image)
{
    struct call unpacked = *call;
    unpacked.kind = call->kind == ERODE_WORDS ? ERODE : call->kind == DILATE_WORDS ? DILATE : ERODE_BY_SIDES;
    unpacked.image = image;
    return unpacked;
}

static uint32_t count_object(const struct call *call)
{
    uint32_t area = 0;
    for (size_t at = 0; at < pixels(call); at++)
        area += call->image[at] == 1;
    return area;
}

static enum refusal call_operation_on_words(const struct call *call)
{
    static uint8_t image[MAX_PIXELS];
    struct call unpacked = unpacked_call(call, image);
    memset(call->counts, 0, 3 * sizeof *call->counts);
    enum refusal refusal = judge_word_count(call);
    if (refusal == ACCEPTED && unused_bit_set(call))
        refusal = UNUSED_BIT_SET;
    if (refusal == ACCEPTED)
        refusal = judge_operation(&unpacked);
    if (refusal != ACCEPTED)
        return refusal;
    unpack_words(call, image);
    change_image(&unpacked, call->counts);
    call->counts[2] = count_object(&unpacked);
    pack_words(call, image);
    return ACCEPTED;
}

static enum refusal call_pack_words(const struct call *call)
{
    enum refusal refusal = judge_word_count(call);
    if (refusal != ACCEPTED)
        return refusal;
    if (call->image_len != pixels(call))
        return BAD_LENGTH;
    if (bad_pixel(call->image, call->image_len))
        return BAD_PIXEL;
    pack_words(call, call->image);
    return ACCEPTED;
}

static enum refusal call_unpack_words(const struct call *call)
{
    enum refusal refusal = judge_word_count(call);
    if (refusal != ACCEPTED)
        return refusal;
    if (call->image_len != pixels(call))
        return BAD_LENGTH;
    if (unused_bit_set(call))
        return UNUSED_BIT_SET;
    unpack_words(call, call->image);
    return ACCEPTED;
}

/* ---- labelling */

struct labels {
    unsigned components, holes;
    unsigned component_at[MAX_PIXELS];
    unsigned hole_at[MAX_PIXELS];
    unsigned hole_parent[MAX_PIXELS + 1];
};

/* Numbers the whole linked sets of one value that have no number yet. */
static unsigned number_sets(const struct call *call, uint8_t value, unsigned connectivity, unsigned *map)
{
    unsigned count = 0;
    for (size_t at = 0; at < pixels(call); at++)
        if (call->image[at] == value && map[at] == 0)
            flood(call, at, connectivity, ++count, map);
    return count;
}

/* The other connectivity: background connects across a corner exactly where components do not. */
static unsigned hole_connectivity(const struct call *call)
{
    return call->connectivity == 4 ? 8 : 4;
}

static unsigned number_holes(const struct call *call, unsigned connectivity, unsigned *map)
{
    const unsigned open = UINT_MAX;
    for (size_t at = 0; at < pixels(call); at++)
        if (on_border(call, at) && call->image[at] == 0 && map[at] == 0)
            flood(call, at, connectivity, open, map);
    unsigned count = number_sets(call, 0, connectivity, map);
    for (size_t at = 0; at < pixels(call); at++)
        if (map[at] == open)
            map[at] = 0;
    return count;
}

unsigned plain_count_holes(const struct call *call, unsigned connectivity)
{
    static unsigned map[MAX_PIXELS];
    memset(map, 0, pixels(call) * sizeof *map);
    return number_holes(call, connectivity, map);
}

static void find_hole_parents(const struct call *call, struct labels *labels)
{
    unsigned found = 0;
    for (size_t at = 0; at < pixels(call); at++)
        if (labels->hole_at[at] > found)
            labels->hole_parent[++found] = labels->component_at[at - 1];
}

static const struct labels *find_labels(const struct call *call)
{
    static struct labels labels;
    memset(labels.component_at, 0, pixels(call) * sizeof *labels.component_at);
    memset(labels.hole_at, 0, pixels(call) * sizeof *labels.hole_at);
    labels.components = number_sets(call, 1, call->connectivity, labels.component_at);
    labels.holes = number_holes(call, hole_connectivity(call), labels.hole_at);
    find_hole_parents(call, &labels);
    return &labels;
}

static uint32_t parent_of(const struct call *call, const struct labels *labels, size_t first)
{
    if (first % call->width == 0 || labels->hole_at[first - 1] == 0)
        return 0;
    return labels->hole_parent[labels->hole_at[first - 1]];
}

static uint32_t *record_of(const struct call *call, unsigned component)
{
    return call->records + (size_t)RECORD * (component - 1);
}

static void begin_record(const struct call *call, const struct labels *labels, unsigned component, size_t first)
{
    uint32_t x = (uint32_t)(first % call->width);
    uint32_t y = (uint32_t)(first / call->width);
    uint32_t begun[RECORD] = {component, x, y, 0, x, y, x, y, 0, parent_of(call, labels, first)};
    memcpy(record_of(call, component), begun, sizeof begun);
}

static void extend_record(uint32_t *record, uint32_t x, uint32_t y)
{
    record[3]++;
    record[4] = x < record[4] ? x : record[4];
    record[5] = y < record[5] ? y : record[5];
    record[6] = x > record[6] ? x : record[6];
    record[7] = y > record[7] ? y : record[7];
}

static void write_records(const struct call *call, const struct labels *labels)
{
    unsigned found = 0;
    for (size_t at = 0; at < pixels(call); at++) {
        unsigned component = labels->component_at[at];
        if (component == 0)
            continue;
        if (component > found)
            begin_record(call, labels, ++found, at);
        extend_record(record_of(call, component), (uint32_t)(at % call->width), (uint32_t)(at / call->width));
    }
    for (unsigned hole = 1; hole <= labels->holes; hole++)
        record_of(call, labels->hole_parent[hole])[8]++;
}

static enum refusal judge_labels(const struct call *call, const struct labels *labels)
{
    if (labels->components > MAX_LABEL)
        return TOO_MANY_COMPONENTS;
    if (labels->holes > MAX_LABEL)
        return TOO_MANY_HOLES;
    if (call->records_len < (size_t)RECORD * labels->components)
        return TOO_FEW_RECORDS;
    return ACCEPTED;
}

static void write_labels(const struct call *call, const struct labels *labels)
{
    for (size_t at = 0; at < pixels(call); at++) {
        call->components[at] = (uint16_t)labels->component_at[at];
        call->holes[at] = (uint16_t)labels->hole_at[at];
    }
    write_records(call, labels);
    call->counts[0] = labels->components;
    call->counts[1] = labels->holes;
}

static enum refusal call_label(const struct call *call)
{
    memset(call->counts, 0, 2 * sizeof *call->counts);
    enum refusal refusal = judge_buffers(call);
    if (refusal == ACCEPTED)
        refusal = judge_operation(call);
    if (refusal != ACCEPTED)
        return refusal;
    memset(call->queue, 0, call->queue_len * sizeof *call->queue);
    memset(call->components, 0, call->components_len * sizeof *call->components);
    memset(call->holes, 0, call->holes_len * sizeof *call->holes);
    const struct labels *labels = find_labels(call);
    refusal = judge_labels(call, labels);
    if (refusal == ACCEPTED)
        write_labels(call, labels);
    return refusal;
}

static uint32_t depth_of(const uint32_t *records, size_t records_len, uint32_t component)
{
    if (component == 0 || (size_t)RECORD * component > records_len)
        return 0;
    uint32_t parent = records[(size_t)RECORD * component - 1];
    return parent == 0 || parent >= component ? 0 : 1 + depth_of(records, records_len, parent);
}

static enum refusal call_widen(const struct call *call)
{
    if (bad_size(call))
        return BAD_SIZE;
    if (call->bytes_len != pixels(call) || call->components_len != pixels(call))
        return BAD_LENGTH;
    for (size_t at = 0; at < pixels(call); at++)
        call->components[at] = call->bytes[at];
    return ACCEPTED;
}

/* ---- jobs */

/* 16 bits, the high byte first. */
static uint16_t number_at(const uint8_t *bytes)
{
    return (uint16_t)(bytes[0] * 256 + bytes[1]);
}

static void put_number(uint8_t *bytes, size_t value)
{
    bytes[0] = (uint8_t)(value / 256);
    bytes[1] = (uint8_t)(value % 256);
}

static size_t row_bytes(const struct call *call)
{
    return (call->width + 7) / 8;
}

static size_t packed_len(const struct call *call)
{
    return row_bytes(call) * call->height;
}

/* A pixel of a packed image; columns from the width on are padding. */
static bool packed_bit(const struct call *call, const uint8_t *packed, size_t x, size_t y)
{
    return (packed[y * row_bytes(call) + x / 8] >> (7 - x % 8)) % 2 == 1;
}

static bool padding_set(const struct call *call, const uint8_t *packed)
{
    for (size_t y = 0; y < call->height; y++)
        for (size_t x = call->width; x < 8 * row_bytes(call); x++)
            if (packed_bit(call, packed, x, y))
                return true;
    return false;
}

static void unpack(const struct call *call, const uint8_t *packed, uint8_t *image)
{
    for (size_t at = 0; at < pixels(call); at++)
        image[at] = packed_bit(call, packed, at % call->width, at / call->width);
}

static void pack(const struct call *call, const uint8_t *image, uint8_t *packed)
{
    memset(packed, 0, packed_len(call));
    for (size_t at = 0; at < pixels(call); at++) {
        size_t x = at % call->width;
        size_t y = at / call->width;
        packed[y * row_bytes(call) + x / 8] |= (uint8_t)(image[at] << (7 - x % 8));
    }
}

enum refusal plain_read_step(const uint8_t *steps, size_t steps_len, size_t *at, struct call *step)
{
    static const uint8_t lengths[UINT8_MAX + 1] = {
        [ERODE] = 5, [DILATE] = 4, [PROPAGATE] = 4, [FLOOD_FILL] = 6, [CLEAR_BORDER] = 2, [ERODE_BY_SIDES] = 5};
    if (*at >= steps_len || steps[*at] > steps_len - *at - 1)
        return BAD_JOB_LENGTH;
    size_t record_len = steps[*at];
    const uint8_t *record = steps + *at + 1;
    if (record_len == 0 || record_len != lengths[record[0]])
        return BAD_STEP;
    step->kind = (enum kind)record[0];
    step->connectivity = record[1];
    if (step->kind == ERODE) {
        step->border_value = record[2];
        step->iterations = number_at(record + 3);
    } else if (step->kind == ERODE_BY_SIDES) {
        step->sides = record[2];
        step->iterations = number_at(record + 3);
    } else if (step->kind == FLOOD_FILL) {
        step->x = number_at(record + 2);
        step->y = number_at(record + 4);
    } else if (step->kind != CLEAR_BORDER) {
        step->iterations = number_at(record + 2);
    }
    *at += 1 + record_len;
    return judge_operation(step);
}

static enum refusal judge_steps(const uint8_t *bytes, size_t len, size_t count, size_t *at, struct call step)
{
    enum refusal refusal = ACCEPTED;
    for (size_t k = 0; k < count && refusal == ACCEPTED; k++)
        refusal = plain_read_step(bytes, len, at, &step);
    return refusal;
}

static enum refusal judge_images(const struct call *call, const uint8_t *packed, size_t len)
{
    if (len != 2 * packed_len(call))
        return BAD_JOB_LENGTH;
    if (padding_set(call, packed) || padding_set(call, packed + packed_len(call)))
        return BAD_PADDING;
    return ACCEPTED;
}

/* What a job says, for a call that is lent the same as the one that is lent the job. */
struct reading {
    struct call call;
    size_t images_at;
};

static enum refusal read_job(const struct call *call, size_t max_pixels, struct reading *reading)
{
    const uint8_t *job = call->job;
    if (call->job_len == 0 || job[0] != 1)
        return BAD_VERSION;
    if (call->job_len < JOB_HEAD || number_at(job + 1) != call->job_len)
        return BAD_JOB_LENGTH;
    reading->call = *call;
    reading->call.width = number_at(job + 3);
    reading->call.height = number_at(job + 5);
    reading->call.step_count = job[7];
    reading->images_at = JOB_HEAD;
    if (bad_size(&reading->call))
        return BAD_SIZE;
    if (pixels(&reading->call) > max_pixels)
        return TOO_MANY_PIXELS;
    if (job[7] > MAX_STEPS)
        return TOO_MANY_STEPS;
    enum refusal refusal = judge_steps(job, call->job_len, job[7], &reading->images_at, reading->call);
    if (refusal != ACCEPTED)
        return refusal;
    return judge_images(&reading->call, job + reading->images_at, call->job_len - reading->images_at);
}

static enum refusal call_read_job(const struct call *call)
{
    struct reading reading;
    memset(call->counts, 0, 4 * sizeof *call->counts);
    enum refusal refusal = read_job(call, MAX_PIXELS, &reading);
    if (refusal != ACCEPTED)
        return refusal;
    call->counts[0] = (uint32_t)reading.call.width;
    call->counts[1] = (uint32_t)reading.call.height;
    call->counts[2] = (uint32_t)reading.call.step_count;
    call->counts[3] = (uint32_t)reading.images_at;
    return ACCEPTED;
}

static bool wrong_images(const struct call *call)
{
    return call->image_len != pixels(call) || call->mask_len != pixels(call);
}

static void unpack_images(const struct reading *reading)
{
    const struct call *call = &reading->call;
    unpack(call, call->job + reading->images_at, call->image);
    unpack(call, call->job + reading->images_at + packed_len(call), call->mask);
}

static enum refusal call_unpack_job(const struct call *call)
{
    struct reading reading;
    enum refusal refusal = read_job(call, MAX_PIXELS, &reading);
    if (refusal != ACCEPTED)
        return refusal;
    if (wrong_images(&reading.call))
        return BAD_LENGTH;
    unpack_images(&reading);
    return ACCEPTED;
}

/* Judges size and steps; *end is where the last record ends. */
static enum refusal judge_list(const struct call *call, size_t *end)
{
    *end = 0;
    if (bad_size(call))
        return BAD_SIZE;
    if (call->step_count > MAX_STEPS)
        return TOO_MANY_STEPS;
    return judge_steps(call->steps, call->steps_len, call->step_count, end, *call);
}

static bool bad_pixels(const struct call *call)
{
    return bad_pixel(call->image, call->image_len) || bad_pixel(call->mask, call->mask_len);
}

static enum refusal call_write_job(const struct call *call)
{
    size_t end;
    enum refusal refusal = judge_list(call, &end);
    if (refusal != ACCEPTED)
        return refusal;
    if (wrong_images(call) || call->job_len != JOB_HEAD + end + 2 * packed_len(call))
        return BAD_LENGTH;
    if (bad_pixels(call))
        return BAD_PIXEL;
    call->job[0] = 1;
    put_number(call->job + 1, call->job_len);
    put_number(call->job + 3, call->width);
    put_number(call->job + 5, call->height);
    call->job[7] = (uint8_t)call->step_count;
    memcpy(call->job + JOB_HEAD, call->steps, end);
    pack(call, call->image, call->job + JOB_HEAD + end);
    pack(call, call->mask, call->job + JOB_HEAD + end + packed_len(call));
    return ACCEPTED;
}

/* Runs steps that have been judged, one operation after another. */
static void run(const struct call *call, const uint8_t *steps, size_t steps_len)
{
    struct call step = *call;
    size_t at = 0;
    call->counts[0] = (uint32_t)call->step_count;
    call->counts[1] = hand_on_contour(call);
    for (size_t k = 0; k < call->step_count; k++) {
        plain_read_step(steps, steps_len, &at, &step);
        operate(&step, call->reports + 3 * k);
        call->counts[1] = call->reports[3 * k + 2];
    }
}

static void run_reading(const struct reading *reading)
{
    unpack_images(reading);
    run(&reading->call, reading->call.job + JOB_HEAD, reading->images_at - JOB_HEAD);
}

static void clear_answers(const struct call *call)
{
    memset(call->counts, 0, 2 * sizeof *call->counts);
    memset(call->reports, 0, 3 * MAX_STEPS * sizeof *call->reports);
}

static enum refusal call_run_steps(const struct call *call)
{
    size_t end;
    clear_answers(call);
    enum refusal refusal = judge_list(call, &end);
    if (refusal != ACCEPTED)
        return refusal;
    if (wrong_images(call))
        return BAD_LENGTH;
    if (call->queue_len < pixels(call))
        return QUEUE_TOO_SHORT;
    if (bad_pixels(call))
        return BAD_PIXEL;
    run(call, call->steps, end);
    return ACCEPTED;
}

static enum refusal call_run_job(const struct call *call)
{
    struct reading reading;
    clear_answers(call);
    enum refusal refusal = read_job(call, MAX_PIXELS, &reading);
    if (refusal != ACCEPTED)
        return refusal;
    if (wrong_images(&reading.call))
        return BAD_LENGTH;
    if (call->queue_len < pixels(&reading.call))
        return QUEUE_TOO_SHORT;
    run_reading(&reading);
    return ACCEPTED;
}

/* ---- the lane program's listing */

/* A call that is lent the lane program's own buffers, long enough for any job that it takes. */
static struct call lane_call(const struct call *call)
{
    static uint8_t image[LANE_PIXELS], mask[LANE_PIXELS];
    static uint16_t queue[LANE_PIXELS], components[LANE_PIXELS], holes[LANE_PIXELS];
    static uint32_t records[RECORD * LANE_RECORDS], counts[2], reports[3 * MAX_STEPS];
    return (struct call){.job = call->job, .job_len = call->job_len, .image = image, .mask = mask,
                         .components = components, .holes = holes, .queue = queue, .queue_len = LANE_PIXELS,
                         .records = records, .records_len = sizeof records / sizeof *records,
                         .counts = counts, .reports = reports};
}

/* Runs the job and labels the image that it leaves. */
static enum refusal run_lane(struct reading *reading)
{
    struct call *call = &reading->call;
    call->image_len = call->components_len = call->holes_len = pixels(call);
    run_reading(reading);
    call->kind = LABEL;
    call->connectivity = 8;
    return call_label(call);
}

static char listed[MAX_LISTING];

static size_t print_numbers(size_t len, const uint32_t *numbers, size_t count)
{
    for (size_t k = 0; k < count; k++)
        len += (size_t)sprintf(listed + len, " %u", (unsigned)numbers[k]);
    return len;
}

static size_t print_steps(size_t len, const struct call *call)
{
    size_t at = 0;
    struct call step = *call;
    for (size_t k = 0; k < call->step_count; k++) {
        plain_read_step(call->job + JOB_HEAD, call->job_len - JOB_HEAD, &at, &step);
        len += (size_t)sprintf(listed + len, "step %zu %d", k + 1, (int)step.kind);
        len = print_numbers(len, call->reports + 3 * k, 3);
        len += (size_t)sprintf(listed + len, "\n");
    }
    return len;
}

static size_t print_components(size_t len, const struct call *call)
{
    len += (size_t)sprintf(listed + len, "parts");
    len = print_numbers(len, call->counts, 2);
    len += (size_t)sprintf(listed + len, "\n");
    for (uint32_t component = 1; component <= call->counts[0]; component++) {
        len += (size_t)sprintf(listed + len, "part");
        len = print_numbers(len, record_of(call, component), RECORD);
        uint32_t depth = depth_of(call->records, call->records_len, component);
        len += (size_t)sprintf(listed + len, " %u\n", (unsigned)depth);
    }
    return len;
}

static size_t call_list_job(const struct call *call)
{
    struct reading reading;
    struct call lent = lane_call(call);
    size_t len;
    enum refusal refusal = read_job(&lent, LANE_PIXELS, &reading);
    if (refusal == ACCEPTED)
        refusal = run_lane(&reading);
    if (refusal == ACCEPTED) {
        const struct call *done = &reading.call;
        len = (size_t)sprintf(listed, "plate %zu %zu %zu\n", done->width, done->height, done->step_count);
        len = print_steps(len, done);
        len = print_components(len, done);
    } else {
        len = (size_t)sprintf(listed, "refused %d\n", (int)refusal);
    }
    memcpy(call->listing, listed, len);
    return len;
}

/* ---- */

size_t plain_call(const struct call *call)
{
    switch (call->kind) {
    case SCAN:
        return call_scan(call);
    case CONTOUR:
        return call->contour_len <= call->queue_len ? call->contour_len : 0;
    case LABEL:
        return call_label(call);
    case DEPTH:
        return depth_of(call->records, call->records_len, call->component);
    case WIDEN:
        return call_widen(call);
    case ERODE_WORDS:
    case ERODE_WORDS_BY_SIDES:
    case DILATE_WORDS:
        return call_operation_on_words(call);
    case PACK_WORDS:
        return call_pack_words(call);
    case UNPACK_WORDS:
        return call_unpack_words(call);
    case READ_JOB:
        return call_read_job(call);
    case UNPACK_JOB:
        return call_unpack_job(call);
    case WRITE_JOB:
        return call_write_job(call);
    case RUN_STEPS:
        return call_run_steps(call);
    case RUN_JOB:
        return call_run_job(call);
    case LIST_JOB:
        return call_list_job(call);
    default:
        return call_operation(call);
    }
}
