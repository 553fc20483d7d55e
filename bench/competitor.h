/* What is measured, and the interface behind which each competitor does it in its own way. */
#ifndef COMPETITOR_H
#define COMPETITOR_H

#include "plate.h"
#include "straightforward.h"

#ifdef __cplusplus
extern "C" {
#endif

enum { PLATES = 64, TO_THE_END = 65535 };

enum kind {
    ERODE, /* outside counts as background */
    DILATE,
    PROPAGATE, /* from the plate's seed, with its image as the mask */
    FLOOD_FILL_HOLE,
    FLOOD_FILL_GROUND,
    CLEAR_BORDER,
    SCAN,
    SCAN_BLANKED,   /* of the image with half its rows blank */
    LABEL,          /* a map, boxes and areas are needed */
    LABEL_IMAGES,   /* in place of the map and the areas, an image of each component will do */
    LABEL_BOXES,    /* only the number of components and their boxes are needed */
    LABEL_MUD,      /* as LABEL, of the muddy image */
    JOB_CALLS,      /* erode 1, dilate 1, clear border, fill a hole, label; by single calls */
    JOB_STEPS,      /* the same, as a list of steps where there is such a thing */
    PACK,           /* bytes into a bit a pixel */
    UNPACK,         /* and back */
    ERODE_STOPPING, /* the straightforward one stops when nothing changes; for it and the library */
    REFUSED         /* once the buffers are judged; for the library alone */
};

/* How the library starts an operation. Any start but a scan is a task of its own. The others do what is packed in
 * their own format. */
enum start {
    BY_SCAN,
    FROM_CONTOUR,
    IN_LONG_QUEUE, /* from a contour, in a queue with twice as many entries behind it to clear */
    PACKED         /* on packed rows, without a contour */
};

/* A row of the tables. */
struct task {
    const char *name;
    enum kind kind;
    uint8_t connectivity;
    uint16_t iterations;
    enum start start;
};

/* What a task gave: an image, the contour marked in an image, or a label map with its components. */
struct result {
    uint8_t image[MAX_PIXELS];
    uint16_t map[MAX_PIXELS];
    int component_count;
    struct component components[MAX_COMPONENTS];
};

struct competitor {
    /* NULL where there is nothing to tell. */
    const char *(*version)(void);
    /* Takes the plates over into the competitor's own format. */
    void (*load)(const struct plate *plates);
    /* Makes a fresh copy of what a task works on; the clock does not run. */
    void (*prepare)(const struct task *task, int number);
    /* Does the task on the copy; the clock runs. */
    void (*run)(const struct task *task);
    /* Tells what the task gave. `result` is all zeros before. */
    void (*tell)(const struct task *task, struct result *result);
    /* It labels no image with more. */
    int max_components;
    /* Whether it has images of a bit a pixel; a library without packed rows has none. */
    int packs;
};

/* `beside` is an older build of the library, made of library.c too: bench/link.sh renames its symbols. */
extern const struct competitor library, straightforward, opencv, leptonica, beside;

/* Stops the benchmarks with a message. */
void fail(const char *message);

/* The image that a task works on. */
const uint8_t *image_of(const struct task *task, const struct plate *plate);

/* The place from which a task fills. */
struct place place_of(const struct task *task, const struct plate *plate);

/* Renumbers a label map and its components, so that they stand in the order of their first pixels. */
void order_components(struct result *result, int len);

#ifdef __cplusplus
}
#endif

#endif
