/*
 * fail.h: what the tools share of files and options. Each function does its work, or says on standard error,
 * in one line, what is wrong and ends the program.
 */
#ifndef FAIL_H
#define FAIL_H

#include <stdio.h>

/* The tool's name, with which its lines begin. Each tool defines it. */
extern const char program[];

/* For bad input: says what is wrong and exits with status 1. */
_Noreturn void fail(const char *format, ...);

/* For wrong usage: says what is wrong, names --help and exits with status 2. */
_Noreturn void fail_usage(const char *format, ...);

/* The file name behind option argv[*i]; *i moves on to it. */
const char *option_file(int argc, char **argv, int *i);

/* A file to read, "-" for standard input, and what to call it. */
FILE *open_input(const char *path);
const char *input_name(const char *path);

/* A file to write, and its end, which fails if a byte was not taken. */
FILE *open_output(const char *path);
void close_output(FILE *file, const char *name);

#endif
