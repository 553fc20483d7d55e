/*
 * compare.h: makes a call of the library and the same call of the reference, compares everything that they
 * answer and leave, and keeps count. The first difference is told and ends the program with status 1.
 */
#ifndef COMPARE_H
#define COMPARE_H

#include "reference.h"

/* Takes the seed from the command line, if one is given, and allocates the buffers. `unit` is what the test
 * goes through one by one, such as "list". */
void begin_test(int argc, char **argv, const char *unit);

/* Calls before the first unit are compared, but not counted. */
void begin_unit(void);

/* Makes the call on the buffers as they are lent; counts, reports and listing are lent here. The result is
 * that of both. */
size_t try_call(const struct call *call);

/* The length of the contour that an accepted operation, scan or run of this kind, made last, has left. */
size_t contour_told(enum kind kind);

/* Tells a difference that a test has found by itself; the rest is as for printf. */
_Noreturn void fail(const struct call *call, const char *format, ...);

/* Prints what was done. It is a failure if a kind from first to last gave more or fewer refusals than
 * duhzarek.h lists for it, if labelling or listing never counted many components and many holes, if no
 * labelling by 4 would count other holes with background connected by 4, or none has a depth of 2, or if some
 * sum of sides from 1 to 14 never left another image than either border value. */
void end_test(enum kind first, enum kind last);

#endif
