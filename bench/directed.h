/*
 * The directed verdict in C: the search that the engine's directed verdict makes, which is timed against it. A breaking
 * set of the least size has no part without masks but the whole, or that part or the rest would break by itself. So a
 * mask of the sum so far has to be taken away by another wire of the set, and only its carriers are tried.
 */
#ifndef DIRECTED_H
#define DIRECTED_H

#include <stddef.h>
#include <stdint.h>

/* The size of the first breaking set in rising size and rank, with the set in `set`, or 0 where the notion holds at the
 * order. */
size_t directed_verdict(const uint8_t *table, size_t wires, size_t notion, size_t order, uint16_t *set);

/* How many inner nodes that search has: those at which a mask is chosen. */
uint64_t directed_nodes(const uint8_t *table, size_t wires, size_t notion, size_t order);

#endif
