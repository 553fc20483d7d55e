/*
 * library.h: the calls of reference.h made through the C interface.
 */
#ifndef LIBRARY_H
#define LIBRARY_H

#include "reference.h"

size_t library_call(const struct call *call);

#endif
