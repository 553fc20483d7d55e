/*
 * fail.c: files and options, and the lines that say what is wrong with them.
 */
#include "fail.h"

#include <errno.h>
#include <stdarg.h>
#include <stdlib.h>
#include <string.h>

/* What was shown before comes first, also where both go to one place. */
static void complain(const char *format, va_list arguments)
{
    fflush(stdout);
    fprintf(stderr, "%s: ", program);
    vfprintf(stderr, format, arguments);
}

void fail(const char *format, ...)
{
    va_list arguments;
    va_start(arguments, format);
    complain(format, arguments);
    va_end(arguments);
    fputc('\n', stderr);
    exit(1);
}

void fail_usage(const char *format, ...)
{
    va_list arguments;
    va_start(arguments, format);
    complain(format, arguments);
    va_end(arguments);
    fprintf(stderr, "; see %s --help\n", program);
    exit(2);
}

const char *option_file(int argc, char **argv, int *i)
{
    if (*i + 1 == argc) {
        fail_usage("%s without a file name", argv[*i]);
    }
    return argv[++*i];
}

FILE *open_input(const char *path)
{
    FILE *file = strcmp(path, "-") == 0 ? stdin : fopen(path, "rb");
    if (file == NULL) {
        fail("%s: cannot be read: %s", path, strerror(errno));
    }
    return file;
}

const char *input_name(const char *path)
{
    return strcmp(path, "-") == 0 ? "standard input" : path;
}

FILE *open_output(const char *path)
{
    FILE *file = fopen(path, "wb");
    if (file == NULL) {
        fail("%s: cannot be written: %s", path, strerror(errno));
    }
    return file;
}

void close_output(FILE *file, const char *name)
{
    const int lost = ferror(file);
    if (fclose(file) != 0 || lost) {
        fail("%s: cannot be written to its end", name);
    }
}
