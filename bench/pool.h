/*
 * The pool in C, which the engine's is held against: it sorts a copy of the reports and goes over it once. It tests the
 * form of every report, as the engine does, and takes clean reports only.
 */
#ifndef POOL_H
#define POOL_H

#include <stddef.h>
#include <stdint.h>

/* The first size, from 1 to the order, and rank of a table of so many wires that no report covers, or 0 where there is
 * none. A report that is not of the form, or not clean, ends the run. */
size_t pool_by_sorting(size_t wires, size_t notion, size_t order, const uint8_t *reports, size_t number,
                       uint64_t *rank);

#endif
