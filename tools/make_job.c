/*
 * make_job.c: makes a job from a PBM picture, a mask and steps given as words.
 */
#define _POSIX_C_SOURCE 200809L

#include <stdio.h>
#include <stdlib.h>
#include <string.h>
#include <unistd.h>

#include "duhzarek.h"
#include "fail.h"
#include "pbm.h"
#include "words.h"

const char program[] = "make_job";

static const char help[] =
    "usage: make_job [-m MASK.pbm] [-o OUT.job] PICTURE.pbm [STEP ...]\n"
    "\n"
    "Makes a job of the picture and up to 32 steps, which run in the order given. Pictures are PBM files\n"
    "(P1 or P4; black is object) of at most 256 by 256 pixels; - is standard input.\n"
    "\n"
    "  -m MASK.pbm   the mask for propagate, of the picture's size. Without it: a mask of all ones\n"
    "  -o OUT.job    where the job goes. Without it: standard output\n"
    "\n"
    "A step is one of\n"
    "\n"
    "  erode:CONNECTIVITY:BORDER:ITERATIONS   object pixels with a background neighbour become background;\n"
    "                                         outside the picture all is BORDER, 0 or 1\n"
    "  erode_by_sides:CONNECTIVITY:SIDES:ITERATIONS\n"
    "                                         the same of a picture that the frame has cut; SIDES is the sum\n"
    "                                         of 1 top, 2 right, 4 bottom, 8 left for the sides beyond which\n"
    "                                         all is object\n"
    "  dilate:CONNECTIVITY:ITERATIONS         background pixels with an object neighbour become object\n"
    "  propagate:CONNECTIVITY:ITERATIONS      dilate, keeping to the mask in every iteration\n"
    "  fill:CONNECTIVITY:X,Y                  the background connected to column X, row Y becomes object\n"
    "  drop:CONNECTIVITY                      objects that touch the edge of the picture are removed\n"
    "\n"
    "CONNECTIVITY is 4 or 8. A number left out is the usual one: CONNECTIVITY 8 (of fill 4), BORDER 0,\n"
    "ITERATIONS 1. So `erode` is erode:8:0:1, `erode:4` is erode:4:0:1, `dilate::3` is dilate:8:3 and\n"
    "`fill::10,12` is fill:4:10,12. SIDES, X and Y have to be given: `erode_by_sides::8`, of a plate that is\n"
    "cut on the left, is erode_by_sides:8:8:1. ITERATIONS are at most 65535.\n"
    "\n"
    "  make_job plate.pbm -o plate.job erode:8:1 drop dilate\n"
    "  make_job plate.pbm erode:8:1 drop propagate:8:5 -m mask.pbm | show_job\n";

struct arguments {
    const char *picture, *mask, *job; /* null where not given */
    size_t step_count;
    const char *steps[DUHZAREK_MAX_STEPS];
};

static void add_word(struct arguments *arguments, const char *word)
{
    if (arguments->picture == NULL) {
        arguments->picture = word;
    } else if (arguments->step_count < DUHZAREK_MAX_STEPS) {
        arguments->steps[arguments->step_count++] = word;
    } else {
        fail("step %d, '%s': over %d steps", DUHZAREK_MAX_STEPS + 1, word, DUHZAREK_MAX_STEPS);
    }
}

static struct arguments read_arguments(int argc, char **argv)
{
    struct arguments arguments = {0};
    for (int i = 1; i < argc; i++) {
        if (strcmp(argv[i], "--help") == 0) {
            fputs(help, stdout);
            exit(0);
        } else if (strcmp(argv[i], "-m") == 0) {
            arguments.mask = option_file(argc, argv, &i);
        } else if (strcmp(argv[i], "-o") == 0) {
            arguments.job = option_file(argc, argv, &i);
        } else if (argv[i][0] == '-' && argv[i][1] != '\0') {
            fail_usage("unknown option %s", argv[i]);
        } else {
            add_word(&arguments, argv[i]);
        }
    }
    if (arguments.picture == NULL) {
        fail_usage("no picture given");
    }
    if (arguments.mask != NULL && strcmp(arguments.picture, "-") == 0 && strcmp(arguments.mask, "-") == 0) {
        fail_usage("the picture and the mask cannot both come from standard input");
    }
    if (arguments.job == NULL && isatty(STDOUT_FILENO)) {
        fail_usage("a job is not for the terminal: give -o or a pipe");
    }
    return arguments;
}

/* Reads the mask, or makes one of all ones. */
static void make_mask(const struct arguments *arguments, const struct picture *picture, struct picture *mask)
{
    if (arguments->mask == NULL) {
        mask->width = picture->width;
        mask->height = picture->height;
        memset(mask->pixels, 1, sizeof mask->pixels);
        return;
    }
    read_picture(arguments->mask, mask);
    if (mask->width != picture->width || mask->height != picture->height) {
        fail("%s: the mask is %zux%zu and the picture %zux%zu", input_name(arguments->mask), mask->width,
             mask->height, picture->width, picture->height);
    }
}

static size_t make_steps(const struct arguments *arguments, const struct picture *picture, uint8_t *steps)
{
    size_t length = 0;
    for (size_t k = 0; k < arguments->step_count; k++) {
        const size_t added = step_from_word(k + 1, arguments->steps[k], steps + length);
        const uint8_t refusal = judge_step(picture->width, picture->height, steps + length, added);
        if (refusal != 0) {
            fail("step %zu, '%s': refused %d: %s", k + 1, arguments->steps[k], refusal,
                 refusal_in_words(refusal));
        }
        length += added;
    }
    return length;
}

static void write_bytes(const char *path, const uint8_t *bytes, size_t length)
{
    FILE *file = path == NULL ? stdout : open_output(path);
    fwrite(bytes, 1, length, file);
    close_output(file, path == NULL ? "standard output" : path);
}

int main(int argc, char **argv)
{
    static struct picture picture, mask;
    static uint8_t steps[DUHZAREK_MAX_STEPS * DUHZAREK_MAX_STEP], job[DUHZAREK_MAX_JOB];
    const struct arguments arguments = read_arguments(argc, argv);
    read_picture(arguments.picture, &picture);
    make_mask(&arguments, &picture, &mask);
    const size_t steps_len = make_steps(&arguments, &picture, steps);
    const size_t pixels = picture.width * picture.height;
    const size_t job_len = DUHZAREK_JOB_LENGTH(picture.width, picture.height, steps_len);
    const uint8_t refusal = duhzarek_write_job(picture.width, picture.height, arguments.step_count, steps,
                                               steps_len, picture.pixels, pixels, mask.pixels, pixels, job,
                                               job_len);
    if (refusal != 0) {
        fail("the job: refused %d: %s", refusal, refusal_in_words(refusal));
    }
    write_bytes(arguments.job, job, job_len);
    return 0;
}
