/*
 * The one table that the benchmark looks at, and what it is filled with. Records may use all shares and masks that
 * there are. The numbers are random, and the same in every run; only the tables of gadgets are read.
 */
#ifndef TABLES_H
#define TABLES_H

#include <stddef.h>
#include <stdint.h>

#include "calduvren.h"

extern uint8_t table[CALDUVREN_MAX_TABLE_BYTES];

uint64_t random_below(uint64_t bound);

/* Both notions hold at every order: a mask remains in every sum, and the test of the masks ends each set. */
void fill_masked(size_t wires);

/* Both notions hold at every order: no masks, and the shares of each sum are counted. */
void fill_unmasked(size_t wires);

/* The same, with one mask that all wires carry. */
void fill_same_mask(size_t wires);

/* The same, with so many masks, each in a wire or not at random: few enough that many sums are left without one. */
void fill_few_masks(size_t wires, size_t masks);

/* The same, with masks that most wires carry: each takes most wires to be tried, and few sums are left without one. */
void fill_dense_masks(size_t wires);

/* Some sets break and some do not, and sums cancel. */
void fill_mixed(size_t wires);

/* One set of `size` wires, at random, breaks both notions, and no other set does. */
void fill_planted(size_t wires, size_t size);

/* The wires of a gadget's description, in a file by its name from the repository's root: how many, and its order. */
size_t fill_gadget(const char *name, size_t *order);

#endif
