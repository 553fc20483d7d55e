/* Leptonica as a competitor, on images of one bit a pixel. */
#include "competitor.h"

#include <leptonica/allheaders.h>

static const struct plate *plates;
static PIX *images[PLATES], *seeds[PLATES], *muddy[PLATES], *blanked[PLATES];
static SEL *plus;

/* What a task works on; `image` is also what it gives. */
static const struct plate *plate;
static PIX *image, *second, *mask, *map;
static PIX *bytes; /* dark objects on light ground to pack, or what was unpacked */
static PTA *positions;
static BOXA *boxes;
static PIXA *components;
static NUMA *areas;

static const char *version(void)
{
    static char *text;
    if (text == NULL)
        text = getLeptonicaVersion();
    return text;
}

static PIX *packed(const struct plate *made, const uint8_t *pixels)
{
    PIX *pix = pixCreate(made->width, made->height, 1);
    for (int y = 0; y < made->height; y++) {
        for (int x = 0; x < made->width; x++)
            pixSetPixel(pix, x, y, pixels[y * made->width + x]);
    }
    return pix;
}

static void load(const struct plate *made)
{
    plates = made;
    selDestroy(&plus);
    plus = selCreateFromString(" x xXx x ", 3, 3, "plus");
    pixDestroy(&image);
    pixDestroy(&second);
    pixDestroy(&mask);
    pixDestroy(&bytes);
    bytes = pixCreate(made->width, made->height, 8);
    image = pixCreate(made->width, made->height, 1);
    second = pixCreate(made->width, made->height, 1);
    mask = pixCreate(made->width, made->height, 1);
    for (int k = 0; k < PLATES; k++) {
        pixDestroy(&images[k]);
        pixDestroy(&seeds[k]);
        pixDestroy(&muddy[k]);
        pixDestroy(&blanked[k]);
        images[k] = packed(&made[k], made[k].image);
        seeds[k] = packed(&made[k], made[k].seed);
        muddy[k] = packed(&made[k], made[k].muddy);
        blanked[k] = packed(&made[k], made[k].blanked);
    }
}

static PIX *packed_image_of(const struct task *task, int number)
{
    switch (task->kind) {
    case PROPAGATE:
        return seeds[number];
    case SCAN_BLANKED:
        return blanked[number];
    case LABEL_MUD:
        return muddy[number];
    default:
        return images[number];
    }
}

static void prepare(const struct task *task, int number)
{
    plate = &plates[number];
    ptaDestroy(&positions);
    boxaDestroy(&boxes);
    pixaDestroy(&components);
    pixDestroy(&map);
    numaDestroy(&areas);
    pixCopy(mask, images[number]);
    pixCopy(image, packed_image_of(task, number));
    if (task->kind == PACK)
        pixConvert1To8(bytes, image, 255, 0);
}

static void swap_images(void)
{
    PIX *before = image;
    image = second;
    second = before;
}

static void replace_image(PIX *with)
{
    pixDestroy(&image);
    image = with;
}

/* By 8, n iterations are one erosion or dilation by a square of side 2 * n + 1, which is the quickest way.
 * Outside counts as background, as long as nothing else is asked for. */
static void erode(int connectivity, int iterations)
{
    if (connectivity == 8) {
        pixErodeBrick(second, image, 2 * iterations + 1, 2 * iterations + 1);
        swap_images();
        return;
    }
    for (int i = 0; i < iterations; i++) {
        pixErode(second, image, plus);
        swap_images();
    }
}

static void dilate(int connectivity, int iterations)
{
    if (connectivity == 8) {
        pixDilateBrick(second, image, 2 * iterations + 1, 2 * iterations + 1);
        swap_images();
        return;
    }
    for (int i = 0; i < iterations; i++) {
        pixDilate(second, image, plus);
        swap_images();
    }
}

static void propagate(int connectivity, int iterations)
{
    if (iterations == TO_THE_END) {
        pixSeedfillBinary(image, image, mask, connectivity);
        return;
    }
    for (int i = 0; i < iterations; i++) {
        dilate(connectivity, 1);
        pixAnd(image, image, mask);
    }
}

/* The quickest way where the part filled is small. */
static void fill_small(int connectivity, struct place place)
{
    l_uint32 value;
    pixGetPixel(image, place.x, place.y, &value);
    if (value == 1)
        return;
    L_STACK *stack = lstackCreate(0);
    stack->auxstack = lstackCreate(0);
    pixInvert(image, image);
    pixSeedfill(image, stack, place.x, place.y, connectivity);
    pixInvert(image, image);
    lstackDestroy(&stack, TRUE);
}

/* The quickest way where it is large. */
static void fill_large(int connectivity, struct place place)
{
    PIX *seed = pixCreateTemplate(image);
    pixSetPixel(seed, place.x, place.y, 1);
    pixInvert(second, image);
    pixSeedfillBinary(seed, seed, second, connectivity);
    pixOr(image, image, seed);
    pixDestroy(&seed);
}

static void scan(void)
{
    resetMorphBoundaryCondition(SYMMETRIC_MORPH_BC);
    pixErode(second, image, plus);
    resetMorphBoundaryCondition(ASYMMETRIC_MORPH_BC);
    pixXor(second, second, image);
    positions = ptaGetPixelsFromPix(second, NULL);
}

/* Paints each component with its number, as pixConnCompTransform does, which gives no boxes. */
static void make_map(void)
{
    int count = pixaGetCount(components), depth = count < 256 ? 8 : 16;
    map = pixCreate(plate->width, plate->height, depth);
    for (int p = 0; p < count; p++) {
        int left, top, wide, high;
        PIX *component = pixaGetPix(components, p, L_CLONE);
        PIX *painted = depth == 8 ? pixConvert1To8(NULL, component, 0, (l_uint8)(p + 1))
                                  : pixConvert1To16(NULL, component, 0, (l_uint16)(p + 1));
        boxaGetBoxGeometry(boxes, p, &left, &top, &wide, &high);
        pixRasterop(map, left, top, wide, high, PIX_PAINT, painted, 0, 0);
        pixDestroy(&painted);
        pixDestroy(&component);
    }
}

static void label(int connectivity)
{
    boxes = pixConnComp(image, &components, connectivity);
    areas = pixaCountPixels(components);
    make_map();
}

static void run_job(void)
{
    erode(8, 1);
    dilate(8, 1);
    replace_image(pixRemoveBorderConnComps(image, 8));
    fill_small(4, plate->hole);
    label(8);
}

static void run(const struct task *task)
{
    switch (task->kind) {
    case ERODE:
        erode(task->connectivity, task->iterations);
        break;
    case DILATE:
        dilate(task->connectivity, task->iterations);
        break;
    case PROPAGATE:
        propagate(task->connectivity, task->iterations);
        break;
    case FLOOD_FILL_HOLE:
        fill_small(task->connectivity, plate->hole);
        break;
    case FLOOD_FILL_GROUND:
        fill_large(task->connectivity, plate->ground);
        break;
    case CLEAR_BORDER:
        replace_image(pixRemoveBorderConnComps(image, task->connectivity));
        break;
    case SCAN:
    case SCAN_BLANKED:
        scan();
        break;
    case LABEL:
    case LABEL_MUD:
        label(task->connectivity);
        break;
    case LABEL_IMAGES:
        boxes = pixConnComp(image, &components, task->connectivity);
        break;
    case LABEL_BOXES:
        boxes = pixConnCompBB(image, task->connectivity);
        break;
    case JOB_CALLS:
    case JOB_STEPS:
        run_job();
        break;
    case PACK:
        replace_image(pixThresholdToBinary(bytes, 128));
        break;
    case UNPACK:
        pixConvert1To8(bytes, image, 0, 1);
        break;
    default:
        fail("Leptonica has no such task");
    }
}

static l_uint32 value_at(PIX *pix, int at)
{
    l_uint32 value;
    pixGetPixel(pix, at % plate->width, at / plate->width, &value);
    return value;
}

static void tell_image(PIX *told, struct result *result)
{
    for (int at = 0; at < plate->width * plate->height; at++)
        result->image[at] = (uint8_t)value_at(told, at);
}

static void tell_map(struct result *result)
{
    for (int at = 0; at < plate->width * plate->height; at++)
        result->map[at] = (uint16_t)value_at(map, at);
    order_components(result, plate->width * plate->height);
}

static void tell_components(struct result *result)
{
    result->component_count = boxaGetCount(boxes);
    for (int p = 0; p < result->component_count && p < MAX_COMPONENTS; p++) {
        struct component *component = &result->components[p];
        int wide, high;
        boxaGetBoxGeometry(boxes, p, &component->left, &component->top, &wide, &high);
        component->right = component->left + wide - 1;
        component->bottom = component->top + high - 1;
        if (areas != NULL)
            numaGetIValue(areas, p, &component->area);
    }
    if (map != NULL)
        tell_map(result);
}

static void tell_positions(struct result *result)
{
    for (int i = 0; i < ptaGetCount(positions); i++) {
        int x, y;
        ptaGetIPt(positions, i, &x, &y);
        result->image[y * plate->width + x]++;
    }
}

static void tell(const struct task *task, struct result *result)
{
    switch (task->kind) {
    case SCAN:
    case SCAN_BLANKED:
        tell_positions(result);
        break;
    case LABEL:
    case LABEL_IMAGES:
    case LABEL_BOXES:
    case LABEL_MUD:
    case JOB_CALLS:
    case JOB_STEPS:
        tell_components(result);
        break;
    default:
        tell_image(task->kind == UNPACK ? bytes : image, result);
    }
}

const struct competitor leptonica = {version, load, prepare, run, tell, MAX_COMPONENTS, 1};
