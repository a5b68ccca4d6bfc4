/*
 * Whether the engine and the searches in C find the same: before anything is timed.
 */
#ifndef COMPARE_H
#define COMPARE_H

#include <stddef.h>

/* Compares them on random tables, few wires and many, and prints on how many. Where they differ, the run ends. */
void compare_random(void);

/* Compares them on a table of a timed shape in which one set of `size` wires breaks, so they have to get to it through
 * all that stand before it. Where they differ, the run ends. */
void compare_planted(size_t wires, size_t size);

#endif
