/* The library as a competitor; for an older build too, with other names of the symbols. */
#include "competitor.h"

#include <string.h>

#include "duhzarek.h"

static const struct plate *plates;
static uint16_t contours[PLATES][MAX_PIXELS];
static size_t contour_len[PLATES];
static uint64_t packed[PLATES][MAX_WORDS];

/* What a task works on. */
static const struct plate *plate;
static size_t width, height, len, words_len, queue_len, start;
static uint64_t words[MAX_WORDS];
static uint8_t image[MAX_PIXELS], mask[MAX_PIXELS];
static uint16_t queue[2 * MAX_PIXELS], component_map[MAX_PIXELS], hole_map[MAX_PIXELS];
static uint32_t counts[3], records[DUHZAREK_RECORD * MAX_COMPONENTS], reports[32][3];
static uint32_t scanned_len, blank_rows; /* what a scan tells */

/* The maps of an older build may have bytes (bench/run --header). A void pointer fits either interface. */
static void *const components = component_map, *const holes = hole_map;

/* An entry of a map, as wide as the largest label of the header in use asks for. */
static uint16_t label_at(const void *map, size_t at)
{
    if (DUHZAREK_MAX_LABELS <= UINT8_MAX)
        return ((const uint8_t *)map)[at];
    return ((const uint16_t *)map)[at];
}

static void expect(uint8_t wanted, uint8_t answer)
{
    if (answer != wanted)
        fail("the library, or its older build, answers another refusal than expected");
}

static void take_plate(int number)
{
    plate = &plates[number];
    width = (size_t)plate->width;
    height = (size_t)plate->height;
    len = width * height;
    words_len = height * ((width + 63) / 64);
}

/* The scan of an older build may tell counts and no blank rows (bench/run --header). link.sh then sets SCAN_COUNTS. */
#ifdef SCAN_COUNTS
enum { TELLS_BLANK_ROWS = 0 };

static uint8_t scan(const uint8_t *scanned, uint16_t *contour)
{
    uint8_t refusal = duhzarek_scan_image(width, height, scanned, len, contour, len, counts);
    scanned_len = counts[2];
    return refusal;
}
#else
enum { TELLS_BLANK_ROWS = 1 };

static uint8_t scan(const uint8_t *scanned, uint16_t *contour)
{
    return duhzarek_scan_image(width, height, scanned, len, contour, len, &scanned_len, &blank_rows);
}
#endif

static void load(const struct plate *made)
{
    plates = made;
    for (int k = 0; k < PLATES; k++) {
        take_plate(k);
        expect(0, scan(plate->image, contours[k]));
        contour_len[k] = scanned_len;
        straightforward_pack(plate->width, plate->height, plate->image, packed[k]);
    }
}

/* What the call is to write holds something else before. */
static void prepare_packed(const struct task *task, int number)
{
    if (task->kind == PACK)
        memset(words, 0xA5, words_len * sizeof words[0]);
    else
        memcpy(words, packed[number], words_len * sizeof words[0]);
    if (task->kind == UNPACK)
        memset(image, 0xA5, len);
}

static void prepare(const struct task *task, int number)
{
    take_plate(number);
    memcpy(image, image_of(task, plate), len);
    memcpy(mask, plate->image, len);
    start = DUHZAREK_SCAN;
    queue_len = len;
    if (task->start == PACKED)
        prepare_packed(task, number);
    if (task->start == BY_SCAN || task->start == PACKED)
        return;
    start = contour_len[number];
    memcpy(queue, contours[number], len * sizeof queue[0]);
    if (task->start == IN_LONG_QUEUE)
        queue_len += len - start;
}

static uint8_t erode(uint8_t connectivity, uint16_t iterations)
{
    return duhzarek_erode(width, height, image, len, queue, queue_len, start, connectivity, 0, iterations, counts);
}

static uint8_t dilate(uint8_t connectivity, uint16_t iterations)
{
    return duhzarek_dilate(width, height, image, len, queue, queue_len, start, connectivity, iterations, counts);
}

static uint8_t flood_fill(uint8_t connectivity, struct place place)
{
    return duhzarek_flood_fill(width, height, image, len, queue, queue_len, start, connectivity, place.x, place.y,
                               counts);
}

static uint8_t clear_border(uint8_t connectivity)
{
    return duhzarek_clear_border(width, height, image, len, queue, queue_len, start, connectivity, counts);
}

static uint8_t label(uint8_t connectivity)
{
    return duhzarek_label_image(width, height, image, len, queue, len, connectivity, components, len, holes,
                                len, records, sizeof records / sizeof records[0], counts);
}

static uint8_t run_calls(void)
{
    uint8_t refusal = erode(8, 1);
    start = counts[2];
    refusal |= dilate(8, 1);
    start = counts[2];
    refusal |= clear_border(8);
    start = counts[2];
    refusal |= flood_fill(4, plate->hole);
    return refusal | label(8);
}

static uint8_t run_steps(void)
{
    unsigned x = plate->hole.x, y = plate->hole.y;
    const uint8_t steps[] = {DUHZAREK_ERODE(8, 0, 1), DUHZAREK_DILATE(8, 1), DUHZAREK_CLEAR_BORDER(8),
                             DUHZAREK_FLOOD_FILL(4, x, y)};
    uint8_t refusal = duhzarek_run_steps(width, height, 4, steps, sizeof steps, image, len, mask, len, queue,
                                         len, counts, reports);
    return refusal | label(8);
}

/* An older build may have no packed rows (bench/run --header). */
#ifdef DUHZAREK_ROW_WORDS
enum { PACKS = 1 };

static uint8_t answer_packed(const struct task *task)
{
    switch (task->kind) {
    case DILATE:
        return duhzarek_dilate_words(width, height, words, words_len, task->connectivity, task->iterations, counts);
    case PACK:
        return duhzarek_pack_words(width, height, image, len, words, words_len);
    case UNPACK:
        return duhzarek_unpack_words(width, height, words, words_len, image, len);
    default:
        return duhzarek_erode_words(width, height, words, words_len, task->connectivity, 0, task->iterations, counts);
    }
}
#else
enum { PACKS = 0 };

static uint8_t answer_packed(const struct task *task)
{
    (void)task;
    fail("the older build has no packed rows");
    return 0;
}
#endif

static uint8_t answer(const struct task *task)
{
    if (task->start == PACKED)
        return answer_packed(task);
    switch (task->kind) {
    case DILATE:
        return dilate(task->connectivity, task->iterations);
    case PROPAGATE:
        return duhzarek_propagate(width, height, image, len, queue, queue_len, start, task->connectivity,
                                  task->iterations, mask, len, counts);
    case FLOOD_FILL_HOLE:
    case FLOOD_FILL_GROUND:
        return flood_fill(task->connectivity, place_of(task, plate));
    case CLEAR_BORDER:
        return clear_border(task->connectivity);
    case SCAN:
    case SCAN_BLANKED:
        return scan(image, queue);
    case LABEL:
    case LABEL_IMAGES:
    case LABEL_BOXES:
    case LABEL_MUD:
        return label(task->connectivity);
    case JOB_CALLS:
        return run_calls();
    case JOB_STEPS:
        return run_steps();
    default:
        return erode(task->connectivity, task->iterations);
    }
}

static void run(const struct task *task)
{
    expect(task->kind == REFUSED ? DUHZAREK_BAD_CONNECTIVITY : 0, answer(task));
}

static void tell_components(struct result *result)
{
    result->component_count = (int)counts[0];
    for (size_t at = 0; at < len; at++)
        result->map[at] = label_at(components, at);
    for (uint32_t p = 0; p < counts[0]; p++) {
        const uint32_t *record = records + DUHZAREK_RECORD * p;
        struct component component = {(int)record[DUHZAREK_AREA], (int)record[DUHZAREK_LEFT],
                                      (int)record[DUHZAREK_TOP], (int)record[DUHZAREK_RIGHT],
                                      (int)record[DUHZAREK_BOTTOM]};
        result->components[p] = component;
    }
}

static void tell_contour(struct result *result)
{
    uint32_t blank = 0;
    for (uint32_t i = 0; i < scanned_len; i++)
        result->image[queue[i]]++;
    for (size_t y = 0; y < height; y++)
        blank += memchr(image + y * width, 1, width) == NULL;
    if (TELLS_BLANK_ROWS && blank_rows != blank)
        fail("the library counts other blank rows than the image has");
}

static void tell_packed(const struct task *task, struct result *result)
{
    uint32_t area = 0;
    straightforward_unpack(plate->width, plate->height, words, result->image);
    for (size_t at = 0; at < len; at++)
        area += result->image[at];
    if (task->kind != PACK && area != counts[2])
        fail("the library counts another area than it leaves");
}

static void tell(const struct task *task, struct result *result)
{
    if (task->start == PACKED && task->kind != UNPACK) {
        tell_packed(task, result);
        return;
    }
    switch (task->kind) {
    case SCAN:
    case SCAN_BLANKED:
        tell_contour(result);
        break;
    case LABEL:
    case LABEL_IMAGES:
    case LABEL_BOXES:
    case LABEL_MUD:
    case JOB_CALLS:
    case JOB_STEPS:
        tell_components(result);
        break;
    default:
        memcpy(result->image, image, len);
    }
}

const struct competitor library = {NULL, load, prepare, run, tell, DUHZAREK_MAX_LABELS, PACKS};
