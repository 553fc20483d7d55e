/*
 * words.c: step records and refusals in words, and step records from words.
 */
#include "words.h"

#include <ctype.h>
#include <stdio.h>
#include <stdlib.h>
#include <string.h>

#include "duhzarek.h"
#include "fail.h"

enum { MAX_FIELDS = 3, NO_DEFAULT = -1 };

struct field {
    const char *name;
    char separator; /* stands before it */
    size_t bytes;
    int usual; /* its value where the word leaves it out */
};

struct kind {
    uint8_t number;   /* the kind byte of its step records */
    const char *form; /* begins with the kind's name */
    size_t field_count;
    struct field fields[MAX_FIELDS];
};

/* Fill is by 4 unless the word says 8: a fill by 8 leaks out through the diagonals of objects that are connected
 * by 8. */
static const struct kind kinds[] = {
    {1,
     "erode:CONNECTIVITY:BORDER:ITERATIONS",
     3,
     {{"connectivity", ':', 1, 8}, {"border value", ':', 1, 0}, {"iterations", ':', 2, 1}}},
    {7,
     "erode_by_sides:CONNECTIVITY:SIDES:ITERATIONS",
     3,
     {{"connectivity", ':', 1, 8}, {"sides", ':', 1, NO_DEFAULT}, {"iterations", ':', 2, 1}}},
    {2, "dilate:CONNECTIVITY:ITERATIONS", 2, {{"connectivity", ':', 1, 8}, {"iterations", ':', 2, 1}}},
    {3, "propagate:CONNECTIVITY:ITERATIONS", 2, {{"connectivity", ':', 1, 8}, {"iterations", ':', 2, 1}}},
    {4,
     "fill:CONNECTIVITY:X,Y",
     3,
     {{"connectivity", ':', 1, 4}, {"x", ':', 2, NO_DEFAULT}, {"y", ',', 2, NO_DEFAULT}}},
    {5, "drop:CONNECTIVITY", 1, {{"connectivity", ':', 1, 8}}},
};

enum { KIND_COUNT = sizeof kinds / sizeof kinds[0] };

static size_t name_length(const char *word)
{
    return strcspn(word, ":");
}

/* Null if the word begins with no kind's name. */
static const struct kind *kind_of_word(const char *word)
{
    const size_t length = name_length(word);
    for (size_t k = 0; k < KIND_COUNT; k++) {
        if (name_length(kinds[k].form) == length && strncmp(kinds[k].form, word, length) == 0) {
            return &kinds[k];
        }
    }
    return NULL;
}

static const struct kind *kind_of_number(uint8_t number)
{
    for (size_t k = 0; k < KIND_COUNT; k++) {
        if (kinds[k].number == number) {
            return &kinds[k];
        }
    }
    fail("no word for a step of kind %d", number);
}

/* A word being read, and how far. */
struct reader {
    size_t place;
    const char *word, *rest, *form;
};

static unsigned long read_field(struct reader *reader, const struct field *field)
{
    if (*reader->rest == field->separator) {
        reader->rest++;
    }
    if (!isdigit((unsigned char)*reader->rest)) {
        if (field->usual == NO_DEFAULT) {
            fail("step %zu, '%s': no %s, it reads %s", reader->place, reader->word, field->name,
                 reader->form);
        }
        return (unsigned long)field->usual;
    }
    char *end;
    const unsigned long number = strtoul(reader->rest, &end, 10);
    if (number >> (8 * field->bytes) != 0) {
        fail("step %zu, '%s': %s %.*s is too large", reader->place, reader->word, field->name,
             (int)(end - reader->rest), reader->rest);
    }
    reader->rest = end;
    return number;
}

/* Numbers of two bytes have the high byte first. */
static void put_field(uint8_t *at, size_t bytes, unsigned long number)
{
    for (size_t i = 0; i < bytes; i++) {
        at[i] = (uint8_t)(number >> (8 * (bytes - 1 - i)));
    }
}

static unsigned field_at(const uint8_t *at, size_t bytes)
{
    unsigned number = 0;
    for (size_t i = 0; i < bytes; i++) {
        number = number << 8 | at[i];
    }
    return number;
}

size_t step_from_word(size_t place, const char *word, uint8_t record[DUHZAREK_MAX_STEP])
{
    const struct kind *kind = kind_of_word(word);
    if (kind == NULL) {
        fail("step %zu, '%s': neither erode nor erode_by_sides, dilate, propagate, fill or drop", place, word);
    }
    struct reader reader = {place, word, word + name_length(word), kind->form};
    size_t length = 2;
    for (size_t f = 0; f < kind->field_count; f++) {
        const struct field *field = &kind->fields[f];
        put_field(record + length, field->bytes, read_field(&reader, field));
        length += field->bytes;
    }
    if (*reader.rest != '\0') {
        fail("step %zu, '%s': cannot read '%s', it reads %s", place, word, reader.rest, kind->form);
    }
    record[0] = (uint8_t)(length - 1);
    record[1] = kind->number;
    return length;
}

size_t word_from_step(const uint8_t *record, char word[MAX_WORD])
{
    const struct kind *kind = kind_of_number(record[1]);
    size_t length = name_length(kind->form);
    memcpy(word, kind->form, length);
    const uint8_t *at = record + 2;
    for (size_t f = 0; f < kind->field_count; f++) {
        const struct field *field = &kind->fields[f];
        length += (size_t)snprintf(word + length, MAX_WORD - length, "%c%u", field->separator,
                                   field_at(at, field->bytes));
        at += field->bytes;
    }
    return (size_t)(at - record);
}

uint8_t judge_step(size_t width, size_t height, const uint8_t *steps, size_t steps_len)
{
    /* Images and a job of no length are refused, but only after the steps. */
    const uint8_t no_image[1] = {0};
    uint8_t no_job[1];
    const uint8_t refusal = duhzarek_write_job(width, height, 1, steps, steps_len, no_image, 0, no_image, 0,
                                               no_job, 0);
    return refusal == DUHZAREK_BAD_LENGTH ? 0 : refusal;
}

const char *refusal_in_words(unsigned refusal)
{
    static const char *const words[] = {
        "not refused",
        "the width or the height is outside 1 to 256",
        "an image, mask, map, job buffer or packed image has another length than needed",
        "the queue has fewer than width * height entries",
        "a byte of the image or of the mask is above 1",
        "the connectivity is neither 4 nor 8",
        "the border value is above 1, or the sides are above 15",
        "the position to fill from is outside the crop",
        "the contour handed in is longer than the queue, or not the image's",
        "over 65,535 components",
        "over 65,535 holes",
        "fewer than ten record entries a component",
        "the job is empty, or its version is not 1",
        "the job has another length than it says or needs",
        "the step has an unknown kind, or another length than its kind",
        "over 32 steps",
        "a padding bit of a packed image is set",
        "over 8,192 pixels",
        "a bit behind the end of a packed row is set",
    };
    return refusal < sizeof words / sizeof words[0] ? words[refusal] : "unknown refusal";
}
