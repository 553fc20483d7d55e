/*
 * show_job.c: shows a job: the crop after every step as a text picture, then its components.
 */
#define _POSIX_C_SOURCE 200809L

#include <errno.h>
#include <stdio.h>
#include <stdlib.h>
#include <string.h>
#include <unistd.h>

#include "duhzarek.h"
#include "fail.h"
#include "pbm.h"
#include "words.h"

const char program[] = "show_job";

static const char help[] =
    "usage: show_job [-o OUT.pbm [--plain]] [JOB]\n"
    "\n"
    "Shows a job, from standard input if no file is named: the crop as it comes and after every step, with\n"
    "# for object and . for background, then the components of the last picture. A step's numbers are the\n"
    "pixels that it changed, the iterations that it used (of fill and drop: 1 if it changed anything) and\n"
    "the length of the contour that it left. Components are connected by 8 and marked 1 to 9, a to z and A\n"
    "to Z, from number 62 on all *; the table tells where each one is. Holes are blank. A job of more pixels\n"
    "or components than the lane program takes is shown all the same, and the last line says so.\n"
    "\n"
    "  -o OUT.pbm   also writes the last picture, as PBM (P4)\n"
    "  --plain      writes it as plain PBM (P1)\n"
    "\n"
    "Of a refused job it says at which byte, counted from 0, the number of the refusal and what it means.\n";

/* A length field has 16 bits, so a file cut to this many bytes is refused as the whole would be. */
enum { MAX_READ = 65536 };

/* Enough for every crop: each component has a pixel of its own. */
enum { RECORD_ENTRIES = DUHZAREK_MAX_PIXELS * DUHZAREK_RECORD };

struct arguments {
    const char *job, *output; /* output is null where not given */
    bool plain;
};

struct job {
    const char *name;
    size_t length;
    uint8_t bytes[MAX_READ];
};

/* The crop with its buffers. */
struct work {
    struct picture crop;
    uint8_t mask[DUHZAREK_MAX_PIXELS];
    uint16_t queue[DUHZAREK_MAX_PIXELS], components[DUHZAREK_MAX_PIXELS], holes[DUHZAREK_MAX_PIXELS];
    uint32_t records[RECORD_ENTRIES];
};

static struct arguments read_arguments(int argc, char **argv)
{
    struct arguments arguments = {NULL, NULL, false};
    for (int i = 1; i < argc; i++) {
        if (strcmp(argv[i], "--help") == 0) {
            fputs(help, stdout);
            exit(0);
        } else if (strcmp(argv[i], "-o") == 0) {
            arguments.output = option_file(argc, argv, &i);
        } else if (strcmp(argv[i], "--plain") == 0) {
            arguments.plain = true;
        } else if (argv[i][0] == '-' && argv[i][1] != '\0') {
            fail_usage("unknown option %s", argv[i]);
        } else if (arguments.job != NULL) {
            fail_usage("one job at a time, and %s is a second", argv[i]);
        } else {
            arguments.job = argv[i];
        }
    }
    if (arguments.plain && arguments.output == NULL) {
        fail_usage("--plain without -o");
    }
    if (arguments.job == NULL && isatty(STDIN_FILENO)) {
        fail_usage("no job, neither a file nor on standard input");
    }
    if (arguments.job == NULL) {
        arguments.job = "-";
    }
    return arguments;
}

static void read_file(const char *path, struct job *job)
{
    FILE *file = open_input(path);
    job->name = input_name(path);
    job->length = fread(job->bytes, 1, MAX_READ, file);
    if (ferror(file)) {
        fail("%s: cannot be read: %s", job->name, strerror(errno));
    }
    fclose(file);
}

static unsigned number_at(const uint8_t *at)
{
    return (unsigned)at[0] << 8 | at[1];
}

/* Where in the steps or behind them a job with a right head is refused. */
static void locate_in_body(const struct job *job, char *where, size_t size)
{
    const size_t width = number_at(job->bytes + 3), height = number_at(job->bytes + 5);
    size_t at = DUHZAREK_HEAD;
    for (unsigned place = 1; place <= job->bytes[7]; place++) {
        if (judge_step(width, height, job->bytes + at, job->length - at) != 0) {
            snprintf(where, size, "byte %zu, step %u", at, place);
            return;
        }
        at += 1 + (size_t)job->bytes[at];
    }
    snprintf(where, size, "the images, from byte %zu on", at);
}

/* Where a job is refused. The library tells the number alone; the questions are asked in its order. */
static void locate(const struct job *job, unsigned refusal, char *where, size_t size)
{
    const uint8_t *bytes = job->bytes;
    if (job->length == 0) {
        snprintf(where, size, "empty");
    } else if (refusal == DUHZAREK_BAD_VERSION) {
        snprintf(where, size, "byte 0, version %u", bytes[0]);
    } else if (job->length < DUHZAREK_HEAD) {
        snprintf(where, size, "%zu bytes, too few for a head", job->length);
    } else if (number_at(bytes + 1) != job->length) {
        snprintf(where, size, "byte 1, length %u where there are %zu%s", number_at(bytes + 1), job->length,
                 job->length == MAX_READ ? " or more" : "");
    } else if (refusal == DUHZAREK_BAD_SIZE) {
        snprintf(where, size, "byte 3, size %ux%u", number_at(bytes + 3), number_at(bytes + 5));
    } else if (refusal == DUHZAREK_TOO_MANY_STEPS) {
        snprintf(where, size, "byte 7, %u steps", bytes[7]);
    } else {
        locate_in_body(job, where, size);
    }
}

/* None of these calls is refused: an accepted job unpacks and runs, and there are records for every crop. */
static void require(const char *call, uint8_t refusal)
{
    if (refusal != 0) {
        fail("%s: refused %d: %s", call, refusal, refusal_in_words(refusal));
    }
}

static void unpack(const struct job *job, struct work *work)
{
    uint32_t head[4];
    const uint8_t refusal = duhzarek_read_job(job->bytes, job->length, head);
    if (refusal != 0) {
        char where[80];
        locate(job, refusal, where, sizeof where);
        fail("%s: %s: refused %d: %s", job->name, where, refusal, refusal_in_words(refusal));
    }
    work->crop.width = head[0];
    work->crop.height = head[1];
    const size_t pixels = work->crop.width * work->crop.height;
    require("unpacking the job",
            duhzarek_unpack_job(job->bytes, job->length, work->crop.pixels, pixels, work->mask, pixels));
}

static char sign_of_pixel(const struct work *work, size_t i)
{
    return work->crop.pixels[i] ? '#' : '.';
}

static const char signs[] = "123456789abcdefghijklmnopqrstuvwxyzABCDEFGHIJKLMNOPQRSTUVWXYZ";

enum { SIGN_COUNT = sizeof signs - 1 };

static char sign_of_label(unsigned label)
{
    return label <= SIGN_COUNT ? signs[label - 1] : '*';
}

static char sign_of_component(const struct work *work, size_t i)
{
    if (work->components[i] != 0) {
        return sign_of_label(work->components[i]);
    }
    return work->holes[i] != 0 ? ' ' : '.';
}

static void show_crop(const struct work *work, char (*sign)(const struct work *, size_t))
{
    for (size_t y = 0; y < work->crop.height; y++) {
        for (size_t x = 0; x < work->crop.width; x++) {
            putchar(sign(work, y * work->crop.width + x));
        }
        putchar('\n');
    }
}

/* Runs the step of this record, shows what it gives, and returns the record's length. */
static size_t show_step(unsigned place, const uint8_t *record, struct work *work)
{
    struct picture *crop = &work->crop;
    const size_t pixels = crop->width * crop->height;
    char word[MAX_WORD];
    const size_t length = word_from_step(record, word);
    uint32_t counts[2], reports[DUHZAREK_MAX_STEPS][3];
    require(word, duhzarek_run_steps(crop->width, crop->height, 1, record, length, crop->pixels, pixels,
                                     work->mask, pixels, work->queue, pixels, counts, reports));
    printf("\nstep %u, %s: changed %u, used %u, contour %u\n\n", place, word, reports[0][0], reports[0][1],
           reports[0][2]);
    show_crop(work, sign_of_pixel);
    return length;
}

static void show_steps(const struct job *job, struct work *work)
{
    const unsigned step_count = job->bytes[7];
    printf("width %zu, height %zu, steps %u\n\n", work->crop.width, work->crop.height, step_count);
    show_crop(work, sign_of_pixel);
    const uint8_t *record = job->bytes + DUHZAREK_HEAD;
    for (unsigned place = 1; place <= step_count; place++) {
        record += show_step(place, record, work);
    }
}

static void show_table(const struct work *work, unsigned component_count)
{
    if (component_count > SIGN_COUNT) {
        printf("\n* marks every component from number %d on\n", SIGN_COUNT + 1);
    }
    puts("\nmark  number  first x  first y   area  left  top  right  bottom  holes  parent  depth");
    for (unsigned p = 1; p <= component_count; p++) {
        const uint32_t *record = work->records + DUHZAREK_RECORD * (p - 1);
        printf("%4c  %6u  %7u  %7u  %5u", sign_of_label(p), record[DUHZAREK_LABEL], record[DUHZAREK_FIRST_X],
               record[DUHZAREK_FIRST_Y], record[DUHZAREK_AREA]);
        printf("  %4u  %3u  %5u  %6u", record[DUHZAREK_LEFT], record[DUHZAREK_TOP], record[DUHZAREK_RIGHT],
               record[DUHZAREK_BOTTOM]);
        printf("  %5u  %6u  %5u\n", record[DUHZAREK_HOLES], record[DUHZAREK_PARENT],
               duhzarek_depth(work->records, RECORD_ENTRIES, p));
    }
}

/* The lane program takes fewer pixels and components than are shown here, and looks at the pixels first. */
static void show_lane_refusal(const struct picture *crop, unsigned component_count)
{
    if (crop->width * crop->height > DUHZAREK_LANE_PIXELS) {
        printf("\nrefused %d by the lane program: over %d pixels\n", DUHZAREK_TOO_MANY_PIXELS,
               DUHZAREK_LANE_PIXELS);
    } else if (component_count > DUHZAREK_LANE_RECORDS) {
        printf("\nrefused %d by the lane program: over %d components\n", DUHZAREK_TOO_FEW_RECORDS,
               DUHZAREK_LANE_RECORDS);
    }
}

static void show_components(struct work *work)
{
    const struct picture *crop = &work->crop;
    const size_t pixels = crop->width * crop->height;
    uint32_t counts[2];
    require("labelling",
            duhzarek_label_image(crop->width, crop->height, crop->pixels, pixels, work->queue, pixels, 8,
                                 work->components, pixels, work->holes, pixels, work->records, RECORD_ENTRIES,
                                 counts));
    printf("\ncomponents %u, holes %u\n\n", counts[0], counts[1]);
    show_crop(work, sign_of_component);
    show_table(work, counts[0]);
    show_lane_refusal(crop, counts[0]);
}

int main(int argc, char **argv)
{
    static struct job job;
    static struct work work;
    const struct arguments arguments = read_arguments(argc, argv);
    read_file(arguments.job, &job);
    unpack(&job, &work);
    show_steps(&job, &work);
    if (arguments.output != NULL) {
        write_picture(arguments.output, &work.crop, arguments.plain);
    }
    show_components(&work);
    close_output(stdout, "standard output");
    return 0;
}
