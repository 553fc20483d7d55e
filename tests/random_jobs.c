/*
 * random_jobs.c: random jobs, whole and damaged, and random lists of steps, by the library and by the
 * reference side by side.
 *
 *     random_jobs [seed]
 *
 * Each job is read, unpacked, run and listed. One that is accepted is also written again, which must give
 * the same bytes, and its steps are run again, as a list and each as a call, which must give the same. Some jobs
 * whose listings are known come before them.
 */
#include "chance.h"
#include "compare.h"
#include "duhzarek.h"
#include "lent.h"

#include <stdio.h>
#include <string.h>

enum {
    JOBS = 40000,
    LARGE = 120,  /* one job in so many has a large crop */
    CROWDED = 80, /* one job in so many has about as many components, or holes, as can be listed */
    BAD = 8,      /* one argument in so many is a bad one */
    LONGEST_RECORD = 7, /* with its length byte */
    MOST_DAMAGES = 3,
    MOST_ADDED = 20 /* bytes that one damage adds */
};

static uint8_t job[DUHZAREK_MAX_JOB + MOST_DAMAGES * MOST_ADDED];

static size_t pixels(const struct call *call)
{
    return call->width * call->height;
}

static void lend_bytes(enum buffer buffer, const uint8_t *bytes, size_t len)
{
    lend(buffer, len);
    memcpy(plain_bytes(buffer), bytes, len);
    hand_over(buffer);
}

/* ---- what a job is made of */

static struct call draw_step(const struct call *pieces)
{
    static const enum kind kinds[] = {ERODE, ERODE_BY_SIDES, DILATE, PROPAGATE, FLOOD_FILL, CLEAR_BORDER};
    struct call step = {.width = pieces->width, .height = pieces->height};
    step.kind = kinds[below(sizeof kinds / sizeof *kinds)];
    step.connectivity = one_in(2) ? 4 : 8;
    if (step.kind == ERODE)
        step.border_value = (uint8_t)below(2);
    if (step.kind == ERODE_BY_SIDES)
        step.sides = (uint8_t)below(ALL_SIDES + 1);
    if (step.kind != FLOOD_FILL && step.kind != CLEAR_BORDER)
        step.iterations = draw_iterations();
    if (step.kind == FLOOD_FILL) {
        step.x = (uint16_t)below(step.width);
        step.y = (uint16_t)below(step.height);
    }
    return step;
}

/* Writes the step's record by the header's macro and tells its length. */
static size_t write_step(const struct call *step, uint8_t *record)
{
    const int erode[] = {DUHZAREK_ERODE(step->connectivity, step->border_value, step->iterations)};
    const int dilate[] = {DUHZAREK_DILATE(step->connectivity, step->iterations)};
    const int propagate[] = {DUHZAREK_PROPAGATE(step->connectivity, step->iterations)};
    const int flood_fill[] = {DUHZAREK_FLOOD_FILL(step->connectivity, step->x, step->y)};
    const int clear_border[] = {DUHZAREK_CLEAR_BORDER(step->connectivity)};
    const int erode_by_sides[] = {DUHZAREK_ERODE_BY_SIDES(step->connectivity, step->sides, step->iterations)};
    const int *const records[] = {[ERODE] = erode, [DILATE] = dilate, [PROPAGATE] = propagate,
                                  [FLOOD_FILL] = flood_fill, [CLEAR_BORDER] = clear_border,
                                  [ERODE_BY_SIDES] = erode_by_sides};
    const int *numbers = records[step->kind];
    size_t len = (size_t)numbers[0] + 1;
    for (size_t k = 0; k < len; k++)
        record[k] = (uint8_t)numbers[k];
    return len;
}

/* The header's macros must say what the scope document's table reads. */
static void check_record(const struct call *step, const uint8_t *record, size_t len)
{
    struct call read = {.width = step->width, .height = step->height};
    size_t end = 0;
    enum refusal refusal = plain_read_step(record, len, &end, &read);
    if (refusal != ACCEPTED || end != len || read.kind != step->kind
        || read.connectivity != step->connectivity || read.border_value != step->border_value
        || read.sides != step->sides || read.iterations != step->iterations || read.x != step->x
        || read.y != step->y)
        fail(step, "the step record that the header's macro gives");
}

static void draw_steps(const struct call *pieces)
{
    uint8_t steps[MAX_STEPS * LONGEST_RECORD];
    size_t len = 0;
    for (size_t k = 0; k < pieces->step_count; k++) {
        struct call step = draw_step(pieces);
        size_t record_len = write_step(&step, steps + len);
        check_record(&step, steps + len, record_len);
        len += record_len;
    }
    lend_bytes(STEPS, steps, len);
}

/* A crowd has no steps, since hardly any would leave it. */
static struct call draw_head(bool crowded)
{
    struct call pieces = {.step_count = 0};
    if (crowded) {
        draw_crowd_size(&pieces.width, &pieces.height);
        return pieces;
    }
    pieces.step_count = one_in(16) ? between(30, MAX_STEPS) : below(6);
    draw_size(LARGE, &pieces.width, &pieces.height);
    return pieces;
}

/* Draws size, steps, image and mask and lends them. */
static struct call draw_pieces(void)
{
    bool crowded = one_in(CROWDED);
    struct call pieces = draw_head(crowded);
    draw_steps(&pieces);
    lend(IMAGE, pixels(&pieces));
    (crowded ? draw_crowd : draw_image)(plain_bytes(IMAGE), pieces.width, pieces.height);
    hand_over(IMAGE);
    lend(MASK, pixels(&pieces));
    draw_image(plain_bytes(MASK), pieces.width, pieces.height);
    hand_over(MASK);
    return pieces;
}

static size_t length_needed(const struct call *pieces)
{
    return DUHZAREK_JOB_LENGTH(pieces->width, pieces->height, lent_len(STEPS));
}

/* ---- jobs, whole and damaged */

static void put_word(uint8_t *bytes, size_t value)
{
    bytes[0] = (uint8_t)(value >> 8);
    bytes[1] = (uint8_t)value;
}

/* Writes the job of the lent pieces by the reference and tells its length. */
static size_t write_whole_job(const struct call *pieces)
{
    struct call write = *pieces;
    lend_all(&write, PLAIN);
    write.kind = WRITE_JOB;
    write.job = job;
    write.job_len = length_needed(pieces);
    if (plain_call(&write) != ACCEPTED)
        fail(&write, "the reference refuses to write a job");
    return write.job_len;
}

static void damage_head(size_t len)
{
    static const size_t sides[] = {0, 1, 2, 8, 9, 16, 128, 255, 256, 257, 512, 65535};
    switch (below(4)) {
    case 0:
        job[0] = (uint8_t)(one_in(2) ? 0 : draw_byte());
        break;
    case 1:
        put_word(job + 1, one_in(2) ? len + below(3) - 1 : below(65536));
        break;
    case 2:
        put_word(job + (one_in(2) ? 3 : 5), sides[below(sizeof sides / sizeof *sides)]);
        break;
    default:
        job[7] = (uint8_t)(one_in(2) ? below(40) : draw_byte());
        break;
    }
}

static void damage_byte(uint8_t *byte)
{
    switch (below(3)) {
    case 0:
        *byte = draw_byte();
        break;
    case 1: /* kinds, lengths, connectivities and sides, good and bad ones */
        *byte = (uint8_t)below(ALL_SIDES + 3);
        break;
    default:
        *byte ^= (uint8_t)(1 << below(8));
        break;
    }
}

/* Damages one thing and tells the new length. */
static size_t damage_once(size_t len)
{
    if (len < JOB_HEAD)
        return len;
    size_t in_steps = JOB_HEAD + below(lent_len(STEPS) + 1);
    in_steps = in_steps < len ? in_steps : len - 1;
    switch (below(7)) {
    case 0:
        return one_in(2) ? below(len) : in_steps;
    case 1:
        draw_bytes(job + len, MOST_ADDED);
        return len + between(1, MOST_ADDED);
    case 2:
        damage_head(len);
        return len;
    case 3:
        damage_byte(job + below(len));
        return len;
    case 4: /* the images' half: the last bit of a row's last byte is mostly padding */
        job[len - 1 - below(len / 2)] |= 1;
        return len;
    default:
        damage_byte(job + in_steps);
        return len;
    }
}

/* Most damaged jobs tell their own length, so that what comes after it is judged. */
static size_t damage(size_t len)
{
    for (size_t left = between(1, MOST_DAMAGES); left > 0; left--)
        len = damage_once(len);
    if (len >= 3 && !one_in(4))
        put_word(job + 1, len);
    return len;
}

static size_t draw_junk(void)
{
    size_t len = below(80);
    draw_bytes(job, len);
    if (len < JOB_HEAD || one_in(4))
        return len;
    job[0] = 1;
    put_word(job + 1, len);
    put_word(job + 3, between(1, 12));
    put_word(job + 5, between(1, 9));
    job[7] = (uint8_t)below(4);
    return len;
}

static size_t draw_job(const struct call *pieces)
{
    size_t len = write_whole_job(pieces);
    if (one_in(12))
        return draw_junk();
    return one_in(3) ? len : damage(len);
}

/* ---- reading, running, listing */

static void lend_images(const struct call *call, bool may_be_bad)
{
    lend(IMAGE, may_be_bad && one_in(BAD) ? draw_bad_length(pixels(call)) : pixels(call));
    lend(MASK, may_be_bad && one_in(BAD) ? draw_bad_length(pixels(call)) : pixels(call));
}

static void lend_queue(const struct call *call, bool may_be_bad)
{
    size_t longer = one_in(2) ? between(1, 40) : 0;
    lend(QUEUE, may_be_bad && one_in(BAD) ? below(pixels(call)) : pixels(call) + longer);
}

static size_t try_kind(enum kind kind, const struct call *call)
{
    struct call one = *call;
    one.kind = kind;
    return try_call(&one);
}

/* A job that is refused is tried with the buffers that its pieces would need. */
static void try_reading(const struct call *call)
{
    lend_images(call, true);
    try_kind(UNPACK_JOB, call);
    lend_images(call, true);
    lend_queue(call, true);
    try_kind(RUN_JOB, call);
    try_kind(LIST_JOB, call);
}

/* ---- accepted jobs */

/* What the run of the job gave. */
static uint32_t run_reports[3 * MAX_STEPS];
static uint8_t run_image[MAX_PIXELS];

static void must_accept(enum kind kind, const struct call *call)
{
    size_t refusal = try_kind(kind, call);
    if (refusal != ACCEPTED)
        fail(call, "refusal %zu, of what an accepted job holds", refusal);
}

static void try_run(const struct call *call)
{
    lend_images(call, false);
    lend_queue(call, false);
    must_accept(RUN_JOB, call);
    memcpy(run_reports, plain_numbers(REPORTS), sizeof run_reports);
    memcpy(run_image, plain_bytes(IMAGE), pixels(call));
}

static void check_run(const struct call *call, const uint32_t *reports)
{
    if (memcmp(reports, run_reports, sizeof run_reports) != 0)
        fail(call, "the reports, from those of the job's run");
    if (memcmp(plain_bytes(IMAGE), run_image, pixels(call)) != 0)
        fail(call, "the last image, from that of the job's run");
}

static void try_writing(const struct call *call, size_t steps_len, size_t len)
{
    if (DUHZAREK_JOB_LENGTH(call->width, call->height, steps_len) != len)
        fail(call, "the length of a job by the header's macro");
    lend_bytes(STEPS, job + JOB_HEAD, one_in(2) ? steps_len : len - JOB_HEAD);
    lend(JOB, len);
    must_accept(WRITE_JOB, call);
    if (memcmp(plain_bytes(JOB), job, len) != 0)
        fail(call, "the job written from what an accepted job holds");
}

static void try_steps_as_calls(const struct call *call)
{
    uint32_t reports[3 * MAX_STEPS] = {0};
    struct call step = *call;
    size_t at = 0;
    must_accept(SCAN, call);
    step.kind = SCAN;
    for (size_t k = 0; k < call->step_count; k++) {
        step.start = contour_told(step.kind);
        plain_read_step(plain_bytes(STEPS), lent_len(STEPS), &at, &step);
        must_accept(step.kind, &step);
        memcpy(reports + 3 * k, plain_numbers(COUNTS), 3 * sizeof *reports);
    }
    check_run(call, reports);
}

static void try_accepted(const struct call *call, size_t steps_len, size_t len)
{
    try_run(call);
    must_accept(UNPACK_JOB, call);
    try_writing(call, steps_len, len);
    lend_queue(call, false);
    must_accept(RUN_STEPS, call);
    check_run(call, plain_numbers(REPORTS));
    must_accept(UNPACK_JOB, call);
    try_steps_as_calls(call);
}

static void try_job(void)
{
    struct call call = draw_pieces();
    size_t len = draw_job(&call);
    lend_bytes(JOB, job, len);
    bool accepted = try_kind(READ_JOB, &call) == ACCEPTED;
    size_t steps_len = 0;
    if (accepted) {
        const uint32_t *head = plain_numbers(COUNTS);
        call.width = head[0];
        call.height = head[1];
        call.step_count = head[2];
        steps_len = head[3] - JOB_HEAD;
    }
    try_reading(&call);
    if (accepted)
        try_accepted(&call, steps_len, len);
}

/* ---- steps and buffers from anywhere */

static size_t draw_bad_count(size_t count)
{
    const size_t counts[] = {count + 1, below(count + 1), 33, 255, 256 + count, 65536 + count,
                             ((size_t)1 << 32) + count, SIZE_MAX};
    return counts[below(sizeof counts / sizeof *counts)];
}

static void spoil_steps(struct call *pieces)
{
    uint8_t steps[MAX_STEPS * LONGEST_RECORD + MOST_ADDED];
    size_t len = lent_len(STEPS);
    memcpy(steps, plain_bytes(STEPS), len);
    draw_bytes(steps + len, MOST_ADDED);
    if (one_in(3))
        pieces->step_count = draw_bad_count(pieces->step_count);
    if (one_in(2))
        damage_byte(steps + below(len + 1));
    if (one_in(3))
        len = one_in(2) ? below(len + 1) : len + between(1, MOST_ADDED);
    lend_bytes(STEPS, steps, len);
}

static void spoil_images(const struct call *pieces)
{
    if (one_in(BAD))
        draw_bad_pixel(plain_bytes(IMAGE), lent_len(IMAGE));
    if (one_in(BAD))
        draw_bad_pixel(plain_bytes(MASK), lent_len(MASK));
    hand_over(IMAGE);
    hand_over(MASK);
    if (one_in(BAD))
        lend(IMAGE, draw_bad_length(pixels(pieces)));
    if (one_in(BAD))
        lend(MASK, draw_bad_length(pixels(pieces)));
}

static void try_spoiled_pieces(void)
{
    struct call pieces = draw_pieces();
    size_t needed = length_needed(&pieces);
    lend(JOB, one_in(BAD) ? draw_bad_length(needed) : needed);
    lend_queue(&pieces, true);
    spoil_images(&pieces);
    if (one_in(2))
        spoil_steps(&pieces);
    if (one_in(2 * BAD))
        pieces.width = draw_bad_side(pieces.width);
    if (one_in(2 * BAD))
        pieces.height = draw_bad_side(pieces.height);
    try_kind(WRITE_JOB, &pieces);
    try_kind(RUN_STEPS, &pieces);
}

/* ---- listings known beforehand */

static void check_listing(const struct call *call, const char *listing)
{
    size_t len = try_call(call);
    if (len != strlen(listing) || memcmp(plain_bytes(LISTING), listing, len) != 0)
        fail(call, "the listing, from the one known beforehand");
}

/* The scope document's example. */
static void try_sample(void)
{
    static const uint8_t sample[] = {1, 0, 0x1D, 0, 5, 0, 5, 2, 5, 1, 8, 0, 0, 1, 4, 2, 4, 0, 1, 0xF8,
                                     0xF8, 0xF8, 0xF8, 0xF8, 0, 0, 0, 0, 0};
    const struct call call = {.kind = LIST_JOB};
    lend_bytes(JOB, sample, sizeof sample);
    check_listing(&call, "plate 5 5 2\nstep 1 1 16 1 8\nstep 2 2 12 1 8\nparts 1 0\n"
                         "part 1 1 0 21 0 0 4 4 0 0 0\n");
}

static bool is_dot(size_t x, size_t y)
{
    return x % 2 == 0 && y % 2 == 0;
}

/* Lends a job without steps that has dots at even columns and rows. */
static void lend_dots(size_t width, size_t height)
{
    struct call pieces = {.width = width, .height = height};
    lend(STEPS, 0);
    lend(IMAGE, width * height);
    lend(MASK, width * height);
    for (size_t at = 0; at < width * height; at++) {
        plain_bytes(IMAGE)[at] = is_dot(at % width, at / width);
        plain_bytes(MASK)[at] = 0;
    }
    hand_over(IMAGE);
    hand_over(MASK);
    lend_bytes(JOB, job, write_whole_job(&pieces));
}

/* As many components as there are records, each a pixel. */
static void try_full_records(void)
{
    static char listing[DUHZAREK_MAX_LISTING];
    const struct call call = {.kind = LIST_JOB};
    size_t len = (size_t)sprintf(listing, "plate 63 63 0\nparts 1024 0\n");
    unsigned p = 0;
    for (unsigned y = 0; y < 63; y += 2)
        for (unsigned x = 0; x < 63; x += 2)
            len += (size_t)sprintf(listing + len, "part %u %u %u 1 %u %u %u %u 0 0 0\n", ++p, x, y, x, y, x, y);
    lend_dots(63, 63);
    check_listing(&call, listing);
}

/* One component more than there are records: 41 dots in each of 25 rows. */
static void try_overfull_records(void)
{
    const struct call call = {.kind = LIST_JOB};
    lend_dots(81, 49);
    check_listing(&call, "refused 11\n");
}

int main(int argc, char **argv)
{
    begin_test(argc, argv, "job");
    try_sample();
    try_full_records();
    try_overfull_records();
    for (size_t left = JOBS; left > 0; left--) {
        begin_unit();
        try_job();
        try_spoiled_pieces();
    }
    end_test(READ_JOB, LIST_JOB);
    return 0;
}
