/*
 * script.c: the lines, words and forms of script.h.
 */
#include "script.h"

#include "duhzarek.h"

#include <ctype.h>
#include <errno.h>
#include <stdint.h>
#include <stdio.h>
#include <stdlib.h>
#include <string.h>

#define DIGITS "0123456789"
#define HEX "0x"

bool read_line(struct line *line)
{
    if (fgets(line->text, sizeof line->text, stdin) == NULL)
        return false;
    size_t len = strcspn(line->text, "\n");
    if (line->text[len] != '\n' && !feof(stdin)) {
        fprintf(stderr, "a line of the script has %d bytes or more\n", MAX_LINE - 1);
        exit(2);
    }
    line->text[len] = '\0';
    return true;
}

void split_line(struct line *line)
{
    char *word = line->text;
    line->count = 0;
    while (word != NULL) {
        line->words[line->count++] = word;
        word = strchr(word, ' ');
        if (word != NULL)
            *word++ = '\0';
    }
}

/* ---- kinds of words */

static bool consists_of(const char *word, const char *bytes)
{
    return *word != '\0' && word[strspn(word, bytes)] == '\0';
}

static bool is_number(const char *word, size_t least, size_t most)
{
    if (!consists_of(word, DIGITS))
        return false;
    errno = 0;
    size_t n = strtoull(word, NULL, 10);
    return errno == 0 && least <= n && n <= most;
}

static bool is_hex(const char *word)
{
    return strncmp(word, HEX, strlen(HEX)) == 0;
}

static bool is_hex_number(const char *word)
{
    const char *digits = word + strlen(HEX);
    return is_hex(word) && consists_of(digits, DIGITS "abcdef") && strlen(digits) <= 16;
}

static bool is_kind(char kind, const char *word)
{
    switch (kind) {
    case 'R':
        return consists_of(word, "/" DIGITS);
    case 'V':
        return is_number(word, 0, UINT32_MAX);
    case 'S':
        return is_number(word, 0, UINT16_MAX);
    case 'B':
        return is_number(word, 0, UINT8_MAX);
    case 'D':
        return is_number(word, 1, DUHZAREK_MAX_SIDE);
    case 'X':
        return is_hex_number(word);
    case 'C':
        return strcmp(word, "sweep") == 0 || strcmp(word, "last") == 0 || is_number(word, 0, SIZE_MAX);
    default:
        return is_number(word, 0, SIZE_MAX);
    }
}

/* ---- forms */

/* `form` is the rest of a form, from the word on that is asked for. */
static bool word_fits(const char *word, const char *form)
{
    if (*form == '*')
        form++;
    if (isupper((unsigned char)*form))
        return is_kind(*form, word);
    size_t len = strcspn(form, " ");
    return len > 0 && strlen(word) == len && memcmp(word, form, len) == 0;
}

bool fits(const struct line *line, const char *form)
{
    for (size_t k = 0; k < line->count; k++) {
        if (!word_fits(line->words[k], form))
            return false;
        if (*form != '*')
            form += strcspn(form, " ");
        if (*form == ' ')
            form++;
    }
    return *form == '\0' || *form == '*';
}

size_t number(const struct line *line, size_t k)
{
    return strtoull(line->words[k], NULL, is_hex(line->words[k]) ? 16 : 10);
}
