/*
 * The engine's searches in the form of walk.h and directed.h. What the engine refuses ends the run.
 */
#ifndef ENGINE_H
#define ENGINE_H

#include "walk.h"

/* The range check: the first breaking rank, with its set in `set`, or `to` where none breaks. */
uint64_t engine_range_check(const struct range *range, uint16_t *set);

/* The verdict: the size of the first breaking set in rising size and rank, with the set in `set`, or 0 where the notion
 * holds at the order. */
size_t engine_verdict(const uint8_t *table, size_t wires, size_t notion, size_t order, uint16_t *set);

/* The same by the directed search. */
size_t engine_directed_verdict(const uint8_t *table, size_t wires, size_t notion, size_t order, uint16_t *set);

#endif
