/*
 * The tables of sets.h.
 */
#include "sets.h"

uint64_t counts[CALDUVREN_MAX_WIRES + 1][CALDUVREN_MAX_SIZE + 1];

uint8_t ones[256];

void sets_prepare(void)
{
    for (size_t wires = 0; wires <= CALDUVREN_MAX_WIRES; wires++) {
        counts[wires][0] = 1;
        for (size_t size = 1; size <= CALDUVREN_MAX_SIZE; size++)
            counts[wires][size] = wires == 0 ? 0 : counts[wires - 1][size] + counts[wires - 1][size - 1];
    }
    for (size_t byte = 1; byte < 256; byte++)
        ones[byte] = (uint8_t)(ones[byte / 2] + byte % 2);
}
