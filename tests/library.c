/*
 * library.c: one call of duhzarek.h for each kind of call.
 */
#include "library.h"

#include "duhzarek.h"

/* The header's limits are the scope document's. */
#define SAME(header, scope) _Static_assert((int)(header) == (int)(scope), #header)
SAME(DUHZAREK_MAX_SIDE, MAX_SIDE);
SAME(DUHZAREK_MAX_LABELS, MAX_LABEL);
SAME(DUHZAREK_MAX_SIDE * DUHZAREK_ROW_WORDS(DUHZAREK_MAX_SIDE), MAX_WORDS);
SAME(DUHZAREK_RECORD, RECORD);
SAME(DUHZAREK_MAX_STEPS, MAX_STEPS);
SAME(DUHZAREK_HEAD, JOB_HEAD);
SAME(DUHZAREK_LANE_PIXELS, LANE_PIXELS);
SAME(DUHZAREK_LANE_RECORDS, LANE_RECORDS);
SAME(DUHZAREK_TOP_SIDE, TOP_SIDE);
SAME(DUHZAREK_RIGHT_SIDE, RIGHT_SIDE);
SAME(DUHZAREK_BOTTOM_SIDE, BOTTOM_SIDE);
SAME(DUHZAREK_LEFT_SIDE, LEFT_SIDE);
SAME(DUHZAREK_ALL_SIDES, ALL_SIDES);

static size_t call_operation(const struct call *c)
{
    switch (c->kind) {
    case ERODE:
        return duhzarek_erode(c->width, c->height, c->image, c->image_len, c->queue, c->queue_len, c->start,
                              c->connectivity, c->border_value, c->iterations, c->counts);
    case ERODE_BY_SIDES:
        return duhzarek_erode_by_sides(c->width, c->height, c->image, c->image_len, c->queue, c->queue_len,
                                       c->start, c->connectivity, c->sides, c->iterations, c->counts);
    case DILATE:
        return duhzarek_dilate(c->width, c->height, c->image, c->image_len, c->queue, c->queue_len, c->start,
                               c->connectivity, c->iterations, c->counts);
    case PROPAGATE:
        return duhzarek_propagate(c->width, c->height, c->image, c->image_len, c->queue, c->queue_len,
                                  c->start, c->connectivity, c->iterations, c->mask, c->mask_len, c->counts);
    case FLOOD_FILL:
        return duhzarek_flood_fill(c->width, c->height, c->image, c->image_len, c->queue, c->queue_len,
                                   c->start, c->connectivity, c->x, c->y, c->counts);
    default:
        return duhzarek_clear_border(c->width, c->height, c->image, c->image_len, c->queue, c->queue_len,
                                     c->start, c->connectivity, c->counts);
    }
}

static size_t call_on_words(const struct call *c)
{
    switch (c->kind) {
    case ERODE_WORDS:
        return duhzarek_erode_words(c->width, c->height, c->words, c->words_len, c->connectivity,
                                    c->border_value, c->iterations, c->counts);
    case ERODE_WORDS_BY_SIDES:
        return duhzarek_erode_words_by_sides(c->width, c->height, c->words, c->words_len, c->connectivity,
                                             c->sides, c->iterations, c->counts);
    case DILATE_WORDS:
        return duhzarek_dilate_words(c->width, c->height, c->words, c->words_len, c->connectivity,
                                     c->iterations, c->counts);
    case PACK_WORDS:
        return duhzarek_pack_words(c->width, c->height, c->image, c->image_len, c->words, c->words_len);
    default:
        return duhzarek_unpack_words(c->width, c->height, c->words, c->words_len, c->image, c->image_len);
    }
}

static size_t call_on_job(const struct call *c)
{
    uint32_t(*reports)[3] = (uint32_t(*)[3])c->reports;
    switch (c->kind) {
    case READ_JOB:
        return duhzarek_read_job(c->job, c->job_len, c->counts);
    case UNPACK_JOB:
        return duhzarek_unpack_job(c->job, c->job_len, c->image, c->image_len, c->mask, c->mask_len);
    case WRITE_JOB:
        return duhzarek_write_job(c->width, c->height, c->step_count, c->steps, c->steps_len, c->image,
                                  c->image_len, c->mask, c->mask_len, c->job, c->job_len);
    case RUN_STEPS:
        return duhzarek_run_steps(c->width, c->height, c->step_count, c->steps, c->steps_len, c->image,
                                  c->image_len, c->mask, c->mask_len, c->queue, c->queue_len, c->counts,
                                  reports);
    case RUN_JOB:
        return duhzarek_run_job(c->job, c->job_len, c->image, c->image_len, c->mask, c->mask_len, c->queue,
                                c->queue_len, c->counts, reports);
    default:
        return duhzarek_lane_listing(c->job, c->job_len, c->listing);
    }
}

size_t library_call(const struct call *c)
{
    switch (c->kind) {
    case SCAN:
        return duhzarek_scan_image(c->width, c->height, c->image, c->image_len, c->queue, c->queue_len,
                                   c->scanned_len, c->blank_rows);
    case CONTOUR:
        return duhzarek_contour(c->queue, c->queue_len, c->contour_len);
    case LABEL:
        return duhzarek_label_image(c->width, c->height, c->image, c->image_len, c->queue, c->queue_len,
                                    c->connectivity, c->components, c->components_len, c->holes,
                                    c->holes_len, c->records, c->records_len, c->counts);
    case DEPTH:
        return duhzarek_depth(c->records, c->records_len, c->component);
    case WIDEN:
        return duhzarek_widen_map(c->width, c->height, c->bytes, c->bytes_len, c->components,
                                  c->components_len);
    default:
        return c->kind < SCAN ? call_operation(c) : c->kind < READ_JOB ? call_on_words(c) : call_on_job(c);
    }
}
