/*
 * Two searches in C for the first breaking set among the sets of one size. Both visit the sets in the order of their
 * ranks and look at the records where they stand in the table. The engine is timed against walk_by_exchange;
 * walk_by_rank, which is the plainer, only has to agree.
 */
#ifndef WALK_H
#define WALK_H

#include <stddef.h>
#include <stdint.h>

/* A table that the engine accepts, the notion, and the ranks to visit: from `from` up to, without, `to`. */
struct range {
    const uint8_t *table;
    size_t wires;
    size_t notion;
    size_t size;
    uint64_t from, to;
};

/* The first breaking rank, with its set in `set`, or `to` where none breaks. Each set is worked out from its rank by
 * the table of counts, and its records are added up anew. */
uint64_t walk_by_rank(const struct range *range, uint16_t *set);

/* The same. Neighbours in the order differ in one wire: it leaves the running sum, another enters. */
uint64_t walk_by_exchange(const struct range *range, uint16_t *set);

#endif
