/* Calls of the library for bench/patterns; for an older build too, with other names of the symbols. */
#include "operation.h"

static uint8_t run_steps(struct crop *crop)
{
    unsigned x = crop->hole.x, y = crop->hole.y;
    const uint8_t steps[] = {DUHZAREK_ERODE(8, 0, 1), DUHZAREK_DILATE(8, 1), DUHZAREK_CLEAR_BORDER(8),
                             DUHZAREK_FLOOD_FILL(4, x, y)};
    return duhzarek_run_steps(crop->width, crop->height, 4, steps, sizeof steps, crop->image, crop->len, crop->mask,
                              crop->len, crop->queue, crop->len, crop->counts, crop->reports);
}

/* The scan of an older build may tell counts and no blank rows (bench/patterns --header). link.sh then sets
 * SCAN_COUNTS. */
static uint8_t scan(struct crop *crop)
{
#ifdef SCAN_COUNTS
    crop->blank_rows = UNTOLD;
    return duhzarek_scan_image(crop->width, crop->height, crop->image, crop->len, crop->queue, crop->len,
                               crop->counts);
#else
    crop->counts[0] = crop->counts[1] = 0;
    return duhzarek_scan_image(crop->width, crop->height, crop->image, crop->len, crop->queue, crop->len,
                               &crop->counts[2], &crop->blank_rows);
#endif
}

uint8_t operate(const struct operation *operation, struct crop *crop)
{
    size_t width = crop->width, height = crop->height, len = crop->len, start = crop->start;
    uint8_t *image = crop->image, connectivity = operation->connectivity;
    uint16_t *queue = crop->queue, iterations = operation->iterations;
    switch (operation->kind) {
    case SCAN:
        return scan(crop);
    case ERODE:
        return duhzarek_erode(width, height, image, len, queue, len, start, connectivity, operation->border_value,
                              iterations, crop->counts);
    case DILATE:
        return duhzarek_dilate(width, height, image, len, queue, len, start, connectivity, iterations, crop->counts);
    case PROPAGATE:
        return duhzarek_propagate(width, height, image, len, queue, len, start, connectivity, iterations, crop->mask,
                                  len, crop->counts);
    case FLOOD_FILL:
        return duhzarek_flood_fill(width, height, image, len, queue, len, start, connectivity, crop->ground.x,
                                   crop->ground.y, crop->counts);
    case CLEAR_BORDER:
        return duhzarek_clear_border(width, height, image, len, queue, len, start, connectivity, crop->counts);
    default:
        return run_steps(crop);
    }
}
