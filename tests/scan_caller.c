/*
 * scan_caller.c: a caller of the scan, compiled and not run. With OLD_FORM it calls the scan as it was before it told
 * blank rows, and must not compile.
 */
#include "duhzarek.h"

uint32_t contour_of(size_t width, size_t height, const uint8_t *image, uint16_t *queue);

/* The length of the contour, or 0 where the scan is refused. */
uint32_t contour_of(size_t width, size_t height, const uint8_t *image, uint16_t *queue)
{
    size_t len = width * height;
#ifdef OLD_FORM
    uint32_t counts[3];
    duhzarek_scan_image(width, height, image, len, queue, len, counts);
    return counts[2];
#else
    uint32_t contour_len, blank_rows;
    duhzarek_scan_image(width, height, image, len, queue, len, &contour_len, &blank_rows);
    return contour_len;
#endif
}
