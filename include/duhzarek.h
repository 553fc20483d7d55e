/*
 * duhzarek.h: number-plate crops cleaned up, by the contour queue of van Vliet and Verwer (1988).
 *
 * Every function may be called with any numbers and any contents of the buffers. It does what it says or
 * answers a refusal, always returns, and is proved to: the contracts stand in crates/exports/src/lib.rt.
 * It keeps nothing between calls, allocates nothing, and may be called from several threads at once.
 *
 * What the caller owes, since no function can test it:
 * - a pointer with a length points to that many entries, is aligned for them and is not null, also where
 *   the length is 0; an array parameter such as counts[3] has that many entries, and a pointer without a length, such
 *   as blank_rows, points to one;
 * - a buffer that a call writes overlaps no other buffer of that call, and nobody else touches it or reads
 *   it until the call returns. Buffers marked const may overlap each other.
 *
 * A crop is width by height pixels, 1 to 256 each. An image or a mask has exactly width * height bytes, one
 * a pixel, 0 background and 1 object, row by row from the top. A position is y * width + x. A queue has at
 * least width * height entries of 16 bits. Some functions take the crop in words of 64 bits: see "packed rows".
 *
 * The contour is the set of object pixels with a background pixel left, right, above or below inside the
 * crop. After each operation on bytes and each scan that is not refused, its positions stand at the queue's front,
 * each once in no particular order, and zeros stand behind them to the queue's end. An operation tells their number
 * as counts[2], a scan as *contour_len, and it can be handed to the next call as `start`. A contour handed in is
 * always checked, and a wrong one is refused; the check costs not much less than a scan, so that it saves time only
 * where the contour is short. A list of steps (duhzarek_run_steps) neither scans nor checks between its steps.
 *
 * The result of most functions is 0, or the number of the refusal. After a refusal nothing lent has
 * changed, unless said below, but that counts, heads and reports and both numbers of a scan are all 0. Where several
 * apply, the one checked first is given: each function lists its refusals in that order.
 */
#ifndef DUHZAREK_H
#define DUHZAREK_H

#include <stddef.h>
#include <stdint.h>

#ifdef __cplusplus
extern "C" {
#endif

enum {
    DUHZAREK_MAX_SIDE = 256,     /* width and height of a crop */
    DUHZAREK_MAX_LABELS = 65535, /* components, and holes: more than any crop has */
    DUHZAREK_MAX_PIXELS = DUHZAREK_MAX_SIDE * DUHZAREK_MAX_SIDE,
    DUHZAREK_STACK = 32768 /* bytes of stack: no function but duhzarek_lane_listing takes more, as measured */
};

/* Refusals. */
enum {
    DUHZAREK_BAD_SIZE = 1,            /* width or height is outside 1 to 256 */
    DUHZAREK_BAD_LENGTH = 2,          /* an image, mask, map or job buffer has another length than needed, or
                                         packed rows have another number of words */
    DUHZAREK_QUEUE_TOO_SHORT = 3,     /* the queue has fewer than width * height entries */
    DUHZAREK_BAD_PIXEL = 4,           /* a byte of the image or of the mask is above 1 */
    DUHZAREK_BAD_CONNECTIVITY = 5,    /* the connectivity is neither 4 nor 8 */
    DUHZAREK_BAD_BORDER_VALUE = 6,    /* the border value is above 1, or the sides are above 15 */
    DUHZAREK_SEED_OUTSIDE = 7,        /* the position to fill from is outside the crop */
    DUHZAREK_WRONG_CONTOUR = 8,       /* the contour handed in is longer than the queue, or not the image's */
    DUHZAREK_TOO_MANY_COMPONENTS = 9, /* over 65,535 components: proved never to arise */
    DUHZAREK_TOO_MANY_HOLES = 10,     /* over 65,535 holes: proved never to arise */
    DUHZAREK_TOO_FEW_RECORDS = 11,    /* fewer than ten record entries a component */
    DUHZAREK_BAD_VERSION = 12,        /* the job is empty, or its version is not 1 */
    DUHZAREK_BAD_JOB_LENGTH = 13,     /* a job of another length than it says or needs, or a step record that
                                         runs past the end */
    DUHZAREK_BAD_STEP = 14,           /* a step record has an unknown kind, or another length than its kind */
    DUHZAREK_TOO_MANY_STEPS = 15,     /* over 32 steps */
    DUHZAREK_BAD_PADDING = 16,        /* a padding bit of a packed image is set */
    DUHZAREK_TOO_MANY_PIXELS = 17,    /* over 8,192 pixels: duhzarek_lane_listing only */
    DUHZAREK_UNUSED_BIT_SET = 18      /* a bit behind the end of a packed row is set */
};

/* For `sides`: a sum of them names the sides of a crop that count as object. */
enum {
    DUHZAREK_TOP_SIDE = 1,
    DUHZAREK_RIGHT_SIDE = 2,
    DUHZAREK_BOTTOM_SIDE = 4,
    DUHZAREK_LEFT_SIDE = 8,
    DUHZAREK_ALL_SIDES = 15
};

/* For `start`: find the contour by a scan of the image. Any other value is the length of the contour that
 * the caller hands in at the queue's front; 0 hands in the empty contour. */
#define DUHZAREK_SCAN SIZE_MAX

/* ---- operations
 *
 * counts[0], changed: pixels that differ before and after. counts[1], used: the fewest iterations that give
 * the same image; of flood_fill and clear_border 1 if anything changed, else 0. counts[2]: the length of
 * the contour that now stands at the queue's front.
 */

/* Erosion, `iterations` times: an object pixel with a background neighbour becomes background. Neighbours
 * outside the crop have the border value. Refusals: 1, 2, 3, 4, 5, 6, 8. */
uint8_t duhzarek_erode(size_t width, size_t height, uint8_t *image, size_t image_len, uint16_t *queue,
                       size_t queue_len, size_t start, uint8_t connectivity, uint8_t border_value,
                       uint16_t iterations, uint32_t counts[3]);

/* Erosion of a crop that the frame has cut: neighbours beyond a side are object where `sides` names it, else
 * background. A neighbour beyond two sides is object only where both are named. Border value 0 of duhzarek_erode
 * is no side, 1 is all sides. After the first iteration the sides no longer matter.
 * Refusals: 1, 2, 3, 4, 5, 6, 8. */
uint8_t duhzarek_erode_by_sides(size_t width, size_t height, uint8_t *image, size_t image_len, uint16_t *queue,
                                size_t queue_len, size_t start, uint8_t connectivity, uint8_t sides,
                                uint16_t iterations, uint32_t counts[3]);

/* Dilation, `iterations` times: a background pixel with an object neighbour becomes object. Outside counts
 * as background. Refusals: 1, 2, 3, 4, 5, 8. */
uint8_t duhzarek_dilate(size_t width, size_t height, uint8_t *image, size_t image_len, uint16_t *queue,
                        size_t queue_len, size_t start, uint8_t connectivity, uint16_t iterations,
                        uint32_t counts[3]);

/* Propagation, `iterations` times: a dilation, then an AND with the mask; no iterations leave the image
 * unmasked. The mask is only read. Refusals: 1, 2, 3, 4, 5, 8. */
uint8_t duhzarek_propagate(size_t width, size_t height, uint8_t *image, size_t image_len, uint16_t *queue,
                           size_t queue_len, size_t start, uint8_t connectivity, uint16_t iterations,
                           const uint8_t *mask, size_t mask_len, uint32_t counts[3]);

/* Flood fill: if the pixel in column x and row y is background, it and every background pixel connected to
 * it become object. Refusals: 1, 2, 3, 4, 5, 7, 8. */
uint8_t duhzarek_flood_fill(size_t width, size_t height, uint8_t *image, size_t image_len, uint16_t *queue,
                            size_t queue_len, size_t start, uint8_t connectivity, uint16_t x, uint16_t y,
                            uint32_t counts[3]);

/* Clear border: every component with a pixel in the first or last row or column becomes background.
 * Refusals: 1, 2, 3, 4, 5, 8. */
uint8_t duhzarek_clear_border(size_t width, size_t height, uint8_t *image, size_t image_len, uint16_t *queue,
                              size_t queue_len, size_t start, uint8_t connectivity, uint32_t counts[3]);

/* Scan: only finds the contour, and tells its length and how many rows of the crop have no object pixel. A row of
 * object pixels alone may have no contour pixel, but is not blank. Refusals: 1, 2, 3, 4. */
uint8_t duhzarek_scan_image(size_t width, size_t height, const uint8_t *image, size_t image_len,
                            uint16_t *queue, size_t queue_len, uint32_t *contour_len, uint32_t *blank_rows);

/* How many positions at the queue's front are the contour of length `len`: len, or 0 where the queue is
 * shorter. Refuses nothing. */
size_t duhzarek_contour(const uint16_t *queue, size_t queue_len, size_t len);

/* ---- packed rows
 *
 * A crop may also stand in words of 64 bits, as the lane camera delivers it: height rows, one after another. Each
 * row starts a word and takes DUHZAREK_ROW_WORDS(width) words. The first pixel is in the top bit: the pixel in
 * column x and row y is
 *
 *     words[y * DUHZAREK_ROW_WORDS(width) + x / 64] >> (63 - x % 64) & 1
 *
 * A word is a uint64_t as the machine has it. On a little-endian machine, such as x86-64, the bytes of a word
 * therefore do not stand in the order of its pixels: of rows that arrive as bytes, first pixel first, the first of
 * eight bytes is the highest of its word. The packed images of a job are no such words: their rows are padded to a
 * byte.
 *
 * 2 is given where words_len is not height * DUHZAREK_ROW_WORDS(width). The unused bits of a row, those behind its
 * end in its last word, are 0 on entry and after; 18 is given where one of them is set. Where the width is a
 * multiple of 64, there are none.
 *
 * The operations work in place, straight on the words. No queue is lent, and no contour is taken or left.
 * counts[0], changed, and counts[1], used, are those of the operation on an image of bytes. counts[2] is the area:
 * the object pixels of the result. After a refusal the words are as they were and all three counts are 0. No
 * iterations change nothing, but everything is judged, and counts[2] is the area of the image as it is. An
 * operation keeps two copies of the words on the stack: DUHZAREK_WORDS_STACK bytes are enough.
 *
 * A caller with an image of bytes packs it, makes the calls and unpacks it:
 *
 *     uint64_t words[DUHZAREK_MAX_SIDE * DUHZAREK_ROW_WORDS(DUHZAREK_MAX_SIDE)];
 *     size_t n = height * DUHZAREK_ROW_WORDS(width);
 *     if (duhzarek_pack_words(width, height, image, width * height, words, n) == 0 &&
 *         duhzarek_erode_words(width, height, words, n, 8, 1, 1, counts) == 0)
 *         duhzarek_unpack_words(width, height, words, n, image, width * height);
 */
#define DUHZAREK_ROW_WORDS(width) (((width) + 63) / 64)

enum { DUHZAREK_WORDS_STACK = 32768 }; /* bytes of stack that such an operation stays within, as measured */

/* Erosion, as duhzarek_erode. Refusals: 1, 2, 18, 5, 6. */
uint8_t duhzarek_erode_words(size_t width, size_t height, uint64_t *words, size_t words_len,
                             uint8_t connectivity, uint8_t border_value, uint16_t iterations,
                             uint32_t counts[3]);

/* Erosion by sides, as duhzarek_erode_by_sides. Refusals: 1, 2, 18, 5, 6. */
uint8_t duhzarek_erode_words_by_sides(size_t width, size_t height, uint64_t *words, size_t words_len,
                                      uint8_t connectivity, uint8_t sides, uint16_t iterations,
                                      uint32_t counts[3]);

/* Dilation, as duhzarek_dilate. Refusals: 1, 2, 18, 5. */
uint8_t duhzarek_dilate_words(size_t width, size_t height, uint64_t *words, size_t words_len,
                              uint8_t connectivity, uint16_t iterations, uint32_t counts[3]);

/* Packs an image of bytes, which is only read; the unused bits become 0. 2 is given for either length. After a
 * refusal the words are as they were. Refusals: 1, 2, 4. */
uint8_t duhzarek_pack_words(size_t width, size_t height, const uint8_t *image, size_t image_len,
                            uint64_t *words, size_t words_len);

/* Unpacks words, which are only read, into an image of bytes. 2 is given for either length. After a refusal the
 * image is as it was. Refusals: 1, 2, 18. */
uint8_t duhzarek_unpack_words(size_t width, size_t height, const uint64_t *words, size_t words_len,
                              uint8_t *image, size_t image_len);

/* ---- labelling */

/* Entries of a component's record: component p's begin at records[DUHZAREK_RECORD * (p - 1)]. */
enum {
    DUHZAREK_LABEL,       /* p itself */
    DUHZAREK_FIRST_X,     /* its first pixel, row by row */
    DUHZAREK_FIRST_Y,
    DUHZAREK_AREA,        /* its pixels */
    DUHZAREK_LEFT,        /* its bounding box, all four inside */
    DUHZAREK_TOP,
    DUHZAREK_RIGHT,
    DUHZAREK_BOTTOM,
    DUHZAREK_HOLES,       /* holes that it encloses */
    DUHZAREK_PARENT,      /* the component that encloses it, 0 if none */
    DUHZAREK_RECORD       /* entries a record has */
};

/* Labels the components, numbered from 1 in the order of their first pixels, and the holes likewise. Holes are
 * counted by the other connectivity: a hole is a whole connected set of background pixels, by 4 where connectivity
 * is 8 and by 8 where it is 4, with no pixel in the first or last row or column. components and holes have
 * width * height entries of 16 bits and get each pixel's number, 0 for none. records gets a record for each
 * component; entries behind the last are left alone. A crop of two pixels or more has fewer components than pixels, so
 * DUHZAREK_RECORD times width * height entries always suffice, and a caller who takes a crop of over n
 * components for no plate lends DUHZAREK_RECORD * n and is told 11.
 * The queue is the workspace and is all zeros then. counts[0] is the number of components, counts[1] that of
 * holes.
 * Refusals: 1, 2, 3, 4, 5, 11. 9 and 10 would stand before 11, but are proved never to arise. After 11 both
 * maps and the queue are all zeros. */
uint8_t duhzarek_label_image(size_t width, size_t height, const uint8_t *image, size_t image_len,
                             uint16_t *queue, size_t queue_len, uint8_t connectivity, uint16_t *components,
                             size_t components_len, uint16_t *holes, size_t holes_len, uint32_t *records,
                             size_t records_len, uint32_t counts[2]);

/* Carries a map of numbers of 8 bits, as callers of an earlier version kept them, over into one of 16 bits: each
 * pixel keeps its number, whatever it is. Both maps have width * height entries; `bytes` is only read.
 * Refusals: 1, 2. */
uint8_t duhzarek_widen_map(size_t width, size_t height, const uint8_t *bytes, size_t bytes_len,
                           uint16_t *labels, size_t labels_len);

/* How many components enclose component p, by its record and those it leads to. 0 where p has no whole
 * record; a parent that is not below p counts as none. Refuses nothing. */
uint32_t duhzarek_depth(const uint32_t *records, size_t records_len, uint32_t p);

/* ---- jobs
 *
 * A job is a file: version 1, its whole length (16 bits, like all such numbers the high byte first), width,
 * height (16 bits each), the number of steps (a byte), the step records, the packed image, the packed mask.
 * A packed image has (width + 7) / 8 bytes a row, the first pixel in the top bit, padding zero.
 *
 * Steps stand in an array of bytes, written with these macros:
 *
 *     const uint8_t steps[] = {DUHZAREK_ERODE(8, 0, 1), DUHZAREK_DILATE(8, 1), DUHZAREK_CLEAR_BORDER(8)};
 *
 * Functions that take steps read step_count records, one after another, from the front of the array, and
 * nothing behind them; so a job's own records can be handed in where they stand, from byte DUHZAREK_HEAD on.
 */
#define DUHZAREK_ERODE(connectivity, border_value, iterations) \
    5, 1, DUHZAREK_BYTE(connectivity), DUHZAREK_BYTE(border_value), DUHZAREK_TWO_BYTES(iterations)
#define DUHZAREK_DILATE(connectivity, iterations) \
    4, 2, DUHZAREK_BYTE(connectivity), DUHZAREK_TWO_BYTES(iterations)
#define DUHZAREK_PROPAGATE(connectivity, iterations) \
    4, 3, DUHZAREK_BYTE(connectivity), DUHZAREK_TWO_BYTES(iterations)
#define DUHZAREK_FLOOD_FILL(connectivity, x, y) \
    6, 4, DUHZAREK_BYTE(connectivity), DUHZAREK_TWO_BYTES(x), DUHZAREK_TWO_BYTES(y)
#define DUHZAREK_CLEAR_BORDER(connectivity) 2, 5, DUHZAREK_BYTE(connectivity)
#define DUHZAREK_ERODE_BY_SIDES(connectivity, sides, iterations) \
    5, 7, DUHZAREK_BYTE(connectivity), DUHZAREK_BYTE(sides), DUHZAREK_TWO_BYTES(iterations)
#define DUHZAREK_BYTE(n) (uint8_t)((n) & 255)                           /* n modulo 256 */
#define DUHZAREK_TWO_BYTES(n) DUHZAREK_BYTE((n) >> 8), DUHZAREK_BYTE(n) /* n modulo 65,536 */

enum {
    DUHZAREK_MAX_STEPS = 32, /* steps in a list */
    DUHZAREK_MAX_STEP = 7,   /* bytes of a step record */
    DUHZAREK_HEAD = 8,       /* bytes before a job's step records */
    DUHZAREK_MAX_JOB = 16616 /* bytes of a job */
};

/* The length of a job whose step records have records_len bytes; bytes behind the records do not count. */
#define DUHZAREK_JOB_LENGTH(width, height, records_len) \
    (DUHZAREK_HEAD + (records_len) + 2 * (((width) + 7) / 8) * (height))

/* Judges a whole job and tells its size: head[0] width, head[1] height, head[2] the number of steps, head[3]
 * where the packed image begins; the step records stand in the bytes from 8 up to there.
 * Refusals: 12, 13, 1, 15, then of each step 13, 14, 5, 6, 7, then of the images 13, 16. */
uint8_t duhzarek_read_job(const uint8_t *job, size_t job_len, uint32_t head[4]);

/* The same, and unpacks its image and its mask, which have width * height bytes each.
 * Refusals: those of duhzarek_read_job, 2. */
uint8_t duhzarek_unpack_job(const uint8_t *job, size_t job_len, uint8_t *image, size_t image_len,
                            uint8_t *mask, size_t mask_len);

/* Writes a job to a buffer of exactly its length, DUHZAREK_JOB_LENGTH. A job always has a mask.
 * Refusals: 1, 15, of each step 13, 14, 5, 6, 7, then 2, 4. */
uint8_t duhzarek_write_job(size_t width, size_t height, size_t step_count, const uint8_t *steps,
                           size_t steps_len, const uint8_t *image, size_t image_len, const uint8_t *mask,
                           size_t mask_len, uint8_t *job, size_t job_len);

/* Runs steps on an image: a scan, then each step from the contour of the one before. reports[k] is changed,
 * used and contour length of step k, counted from 0, and zeros behind the last step. counts[0] is the number
 * of steps, counts[1] the length of the last contour, which stands at the queue's front. The mask is judged
 * also where no step propagates.
 * Refusals: 1, 15, of each step 13, 14, 5, 6, 7, then 2, 3, 4. */
uint8_t duhzarek_run_steps(size_t width, size_t height, size_t step_count, const uint8_t *steps,
                           size_t steps_len, uint8_t *image, size_t image_len, const uint8_t *mask,
                           size_t mask_len, uint16_t *queue, size_t queue_len, uint32_t counts[2],
                           uint32_t reports[DUHZAREK_MAX_STEPS][3]);

/* Unpacks a job's image and mask and runs its steps on them; what the buffers held does not matter.
 * Refusals: those of duhzarek_read_job, 2, 3. */
uint8_t duhzarek_run_job(const uint8_t *job, size_t job_len, uint8_t *image, size_t image_len, uint8_t *mask,
                         size_t mask_len, uint16_t *queue, size_t queue_len, uint32_t counts[2],
                         uint32_t reports[DUHZAREK_MAX_STEPS][3]);

/* ---- the lane program */

enum {
    DUHZAREK_LANE_PIXELS = 8192,  /* pixels of a crop that it takes */
    DUHZAREK_LANE_RECORDS = 1024, /* components that it lists */
    DUHZAREK_MAX_LINE = 256,      /* bytes of a line */
    /* a line of the plate, one for each step, one of the counts, one for each component */
    DUHZAREK_MAX_LISTING = DUHZAREK_MAX_LINE * (2 + DUHZAREK_MAX_STEPS + DUHZAREK_LANE_RECORDS),
    DUHZAREK_LISTING_STACK = 139264 /* bytes of stack that duhzarek_lane_listing stays within, as measured */
};

/* What the lane program prints for a job, at the listing's front; what stands behind it is left alone.
 * Returns its length. A refused job is listed as `refused` and the number; refuses nothing itself. A crop of
 * over 8,192 pixels is refused with 17, one of over 1,024 components with 11.
 * It keeps its images, maps and records on the stack: DUHZAREK_LISTING_STACK bytes are enough, which is more than
 * some threads have. */
size_t duhzarek_lane_listing(const uint8_t *job, size_t job_len, uint8_t listing[DUHZAREK_MAX_LISTING]);

#ifdef __cplusplus
}
#endif

#endif
