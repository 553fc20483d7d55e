/*
 * script.h: the lines of a script, the words of a line, and the forms that a line may have.
 *
 * A word of a form stands for itself, or, if it is a capital letter, for any word of a kind:
 *
 *     R  rows of digits with slashes between them
 *     N  a number of 64 bits; V has 32, S has 16, B has 8; D is from 1 to 256
 *     X  a number of 64 bits in hexadecimal digits, 0x before them
 *     C  where an operation starts: `sweep`, `last` or the length of a contour
 *
 * The last word of a form may have a star before it; there may be any number of those, also none.
 */
#ifndef SCRIPT_H
#define SCRIPT_H

#include <stdbool.h>
#include <stddef.h>

enum { MAX_LINE = 8192 };

/* An empty word takes no more than the space behind it. */
struct line {
    char text[MAX_LINE];
    const char *words[MAX_LINE];
    size_t count;
};

/* Reads the next line of standard input as it stands; false at the end. */
bool read_line(struct line *line);

/* Cuts the text into words; one space stands between two words. */
void split_line(struct line *line);

bool fits(const struct line *line, const char *form);

/* The number that a word is, of a line that fits a form with a number there. */
size_t number(const struct line *line, size_t k);

#endif
