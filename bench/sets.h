/*
 * What the searches in C have in common: sets of wires and their ranks, the sum of their records, and when it breaks a
 * notion (scope, "Breaking sets" and "Numbering and dividing"). All of it is small and inlined where it is used.
 */
#ifndef SETS_H
#define SETS_H

#include <stddef.h>
#include <stdint.h>
#include <string.h>

#include "calduvren.h"

/* How many sets there are, at wires and size. */
extern uint64_t counts[CALDUVREN_MAX_WIRES + 1][CALDUVREN_MAX_SIZE + 1];

/* How many ones a byte has: plain x86-64 has no instruction for it. */
extern uint8_t ones[256];

/* Fills both. To be called once, before all else. */
void sets_prepare(void);

/* Records added bit by bit without carry. */
struct sum {
    uint64_t products, masks;
    uint8_t shares_a, shares_b;
};

static inline void add(struct sum *sum, const uint8_t *table, size_t wire)
{
    const uint8_t *record = table + CALDUVREN_RECORD_BYTES * wire;
    uint64_t products, masks;
    memcpy(&products, record, 8); /* x86-64 is little-endian, as the records are */
    memcpy(&masks, record + 8, 8);
    sum->products ^= products;
    sum->masks ^= masks;
    sum->shares_a ^= record[16];
    sum->shares_b ^= record[17];
}

/* Whether a wire pays for a share: under SNI only the inner ones do. */
static inline size_t pays(const uint8_t *table, size_t notion, size_t wire)
{
    return notion == CALDUVREN_NI || table[CALDUVREN_RECORD_BYTES * wire + 18] == 0;
}

/* Bit k is set where one of the eight bits k, k + stride, k + 2 stride, .. is. */
static inline uint64_t gather(uint64_t word, unsigned stride)
{
    word |= word >> stride;
    word |= word >> 2 * stride;
    return word | word >> 4 * stride;
}

/* Whether a sum without masks depends on more shares of a, or of b, than are paid for. */
static inline int exceeds(const struct sum *sum, size_t paid)
{
    uint64_t lowest = gather(sum->products, 1) & 0x0101010101010101;
    uint8_t rows = (uint8_t)gather(lowest, 7);
    uint8_t columns = (uint8_t)gather(sum->products, 8);
    return paid < ones[rows | sum->shares_a] || paid < ones[columns | sum->shares_b];
}

static inline int breaks(const struct sum *sum, size_t paid)
{
    return sum->masks == 0 && exceeds(sum, paid);
}

/* The highest wire of the set at a rank: the sets out of as many wires stand before it, those of one more do not. */
static inline size_t top_wire(size_t wires, size_t size, uint64_t rank)
{
    size_t low = 0, high = wires;
    while (high - low > 1) {
        size_t middle = low + (high - low) / 2;
        if (counts[middle][size] <= rank)
            low = middle;
        else
            high = middle;
    }
    return low;
}

/* The set at a rank, its highest wire first: below it stand the sets of one wire less, in reverse. */
static inline void unrank(size_t wires, size_t size, uint64_t rank, uint16_t *set)
{
    for (size_t left = size; left > 0; left--) {
        size_t wire = top_wire(wires, left, rank);
        rank = counts[wire + 1][left] - 1 - rank;
        set[left - 1] = (uint16_t)wire;
        wires = wire;
    }
}

#endif
