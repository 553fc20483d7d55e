/*
 * pbm.c: reads and writes PBM files.
 */
#include "pbm.h"

#include <errno.h>
#include <stdio.h>
#include <string.h>

#include "fail.h"

/* A file being read: the byte read last, its line, counted from 1, and how many bytes were read. */
struct source {
    const char *path;
    FILE *file;
    int last;
    unsigned long line, bytes;
};

static int next_byte(struct source *source)
{
    const int byte = getc(source->file);
    if (byte == EOF && ferror(source->file)) {
        fail("%s: cannot be read: %s", source->path, strerror(errno));
    }
    if (source->last == '\n') {
        source->line++;
    }
    if (byte != EOF) {
        source->bytes++;
    }
    source->last = byte;
    return byte;
}

/* The next character of the text parts. A comment reads as the line end that ends it. */
static int next_character(struct source *source)
{
    int character = next_byte(source);
    if (character == '#') {
        while (character != '\n' && character != '\r' && character != EOF) {
            character = next_byte(source);
        }
    }
    return character;
}

static bool is_space(int character)
{
    return character == ' ' || character == '\t' || character == '\n' || character == '\r';
}

static int next_visible(struct source *source)
{
    int character = next_character(source);
    while (is_space(character)) {
        character = next_character(source);
    }
    return character;
}

static bool is_digit(int character)
{
    return character >= '0' && character <= '9';
}

static _Noreturn void fail_in_text(const struct source *source, const char *problem, const char *name)
{
    const char *cut_off = source->last == EOF ? "cut off, " : "";
    fail("%s: line %lu: %s%s the %s", source->path, source->line, cut_off, problem, name);
}

/* Reads the width or the height and the one white space character behind it. */
static size_t read_side(struct source *source, const char *name)
{
    int character = next_visible(source);
    if (!is_digit(character)) {
        fail_in_text(source, "no number for", name);
    }
    size_t side = 0;
    for (; is_digit(character); character = next_character(source)) {
        if (side <= DUHZAREK_MAX_SIDE) {
            side = side * 10 + (size_t)(character - '0');
        }
    }
    if (side < 1 || side > DUHZAREK_MAX_SIDE) {
        fail("%s: line %lu: the %s is outside 1 to %d", source->path, source->line, name, DUHZAREK_MAX_SIDE);
    }
    if (!is_space(character)) {
        fail_in_text(source, "no white space behind", name);
    }
    return side;
}

static bool read_magic(struct source *source)
{
    const int first = next_byte(source);
    const int second = next_byte(source);
    if (first != 'P' || (second != '1' && second != '4') || !is_space(next_character(source))) {
        fail("%s: not a PBM picture: it does not begin with P1 or P4 and white space", source->path);
    }
    return second == '1';
}

static void read_plain(struct source *source, struct picture *picture)
{
    const size_t total = picture->width * picture->height;
    for (size_t i = 0; i < total; i++) {
        const int character = next_visible(source);
        if (character == EOF) {
            fail("%s: line %lu: cut off after %zu of %zu pixels", source->path, source->line, i, total);
        }
        if (character != '0' && character != '1') {
            fail("%s: line %lu: pixel %zu of %zu is neither 0 nor 1", source->path, source->line, i + 1,
                 total);
        }
        picture->pixels[i] = character == '1';
    }
}

static void read_packed(struct source *source, struct picture *picture)
{
    const size_t row_bytes = (picture->width + 7) / 8;
    const unsigned long needed = source->bytes + row_bytes * picture->height;
    for (size_t y = 0; y < picture->height; y++) {
        int byte = 0;
        for (size_t x = 0; x < picture->width; x++) {
            if (x % 8 == 0) {
                byte = next_byte(source);
            }
            if (byte == EOF) {
                fail("%s: byte %lu: cut off, the picture takes %lu bytes", source->path, source->bytes,
                     needed);
            }
            picture->pixels[y * picture->width + x] = (byte >> (7 - x % 8)) & 1;
        }
    }
}

void read_picture(const char *path, struct picture *picture)
{
    struct source source = {input_name(path), open_input(path), EOF, 1, 0};
    const bool plain = read_magic(&source);
    picture->width = read_side(&source, "width");
    picture->height = read_side(&source, "height");
    if (plain) {
        read_plain(&source, picture);
    } else {
        read_packed(&source, picture);
    }
    if (next_visible(&source) != EOF) {
        fail("%s: byte %lu: more behind the last pixel of %zux%zu", source.path, source.bytes - 1,
             picture->width, picture->height);
    }
    fclose(source.file);
}

/* PBM asks for lines of at most 70 characters in a plain file. */
static void write_plain(FILE *file, const struct picture *picture)
{
    for (size_t i = 0; i < picture->width * picture->height; i++) {
        const size_t next_x = i % picture->width + 1;
        fputc(picture->pixels[i] ? '1' : '0', file);
        if (next_x == picture->width || next_x % 64 == 0) {
            fputc('\n', file);
        }
    }
}

static void write_packed(FILE *file, const struct picture *picture)
{
    for (size_t y = 0; y < picture->height; y++) {
        int byte = 0;
        for (size_t x = 0; x < picture->width; x++) {
            byte |= picture->pixels[y * picture->width + x] << (7 - x % 8);
            if (x % 8 == 7 || x + 1 == picture->width) {
                fputc(byte, file);
                byte = 0;
            }
        }
    }
}

void write_picture(const char *path, const struct picture *picture, bool plain)
{
    FILE *file = open_output(path);
    fprintf(file, "%s\n%zu %zu\n", plain ? "P1" : "P4", picture->width, picture->height);
    if (plain) {
        write_plain(file, picture);
    } else {
        write_packed(file, picture);
    }
    close_output(file, path);
}
