/* The straightforward implementation as a competitor. */
#include "competitor.h"

#include <string.h>

static const struct plate *plates;

/* What a task works on. */
static const struct plate *plate;
static int width, height, component_count, position_count;
static uint8_t image[MAX_PIXELS], mask[MAX_PIXELS];
static uint16_t map[MAX_PIXELS];
static int positions[MAX_PIXELS];
static uint64_t words[MAX_WORDS];
static struct component components[MAX_COMPONENTS];

static void load(const struct plate *made)
{
    plates = made;
}

static void prepare(const struct task *task, int number)
{
    plate = &plates[number];
    width = plate->width;
    height = plate->height;
    memcpy(image, image_of(task, plate), (size_t)(width * height));
    memcpy(mask, plate->image, (size_t)(width * height));
    if (task->kind == UNPACK)
        straightforward_pack(width, height, image, words);
}

static void propagate(int connectivity, int iterations)
{
    if (iterations == TO_THE_END)
        straightforward_reconstruct(width, height, image, connectivity, mask);
    else
        straightforward_propagate(width, height, image, connectivity, iterations, mask);
}

static void flood_fill(int connectivity, struct place place)
{
    straightforward_flood_fill(width, height, image, connectivity, place.x, place.y);
}

static void label(int connectivity)
{
    component_count = straightforward_label(width, height, image, connectivity, map, components);
}

static void run_job(void)
{
    straightforward_erode(width, height, image, 8, 0, 1);
    straightforward_dilate(width, height, image, 8, 1);
    straightforward_clear_border(width, height, image, 8);
    flood_fill(4, plate->hole);
    label(8);
}

static void run(const struct task *task)
{
    switch (task->kind) {
    case ERODE:
        straightforward_erode(width, height, image, task->connectivity, 0, task->iterations);
        break;
    case ERODE_STOPPING:
        straightforward_erode_stopping(width, height, image, task->connectivity, 0, task->iterations);
        break;
    case DILATE:
        straightforward_dilate(width, height, image, task->connectivity, task->iterations);
        break;
    case PROPAGATE:
        propagate(task->connectivity, task->iterations);
        break;
    case FLOOD_FILL_HOLE:
    case FLOOD_FILL_GROUND:
        flood_fill(task->connectivity, place_of(task, plate));
        break;
    case CLEAR_BORDER:
        straightforward_clear_border(width, height, image, task->connectivity);
        break;
    case SCAN:
    case SCAN_BLANKED:
        position_count = straightforward_scan(width, height, image, positions);
        break;
    case LABEL:
    case LABEL_IMAGES:
    case LABEL_BOXES:
    case LABEL_MUD:
        label(task->connectivity);
        break;
    case JOB_CALLS:
    case JOB_STEPS:
        run_job();
        break;
    case PACK:
        straightforward_pack(width, height, image, words);
        break;
    case UNPACK:
        straightforward_unpack(width, height, words, image);
        break;
    default:
        fail("the straightforward implementation has no such task");
    }
}

static void tell_components(struct result *result)
{
    if (component_count < 0)
        fail("a plate has too many components");
    result->component_count = component_count;
    memcpy(result->map, map, (size_t)(width * height) * sizeof map[0]);
    memcpy(result->components, components, sizeof components[0] * (size_t)component_count);
}

static void tell(const struct task *task, struct result *result)
{
    switch (task->kind) {
    case SCAN:
    case SCAN_BLANKED:
        for (int i = 0; i < position_count; i++)
            result->image[positions[i]]++;
        break;
    case LABEL:
    case LABEL_IMAGES:
    case LABEL_BOXES:
    case LABEL_MUD:
    case JOB_CALLS:
    case JOB_STEPS:
        tell_components(result);
        break;
    case PACK:
        straightforward_unpack(width, height, words, result->image);
        break;
    default:
        memcpy(result->image, image, (size_t)(width * height));
    }
}

const struct competitor straightforward = {NULL, load, prepare, run, tell, MAX_COMPONENTS, 1};
