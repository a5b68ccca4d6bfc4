/*
 * The searches of engine.h. A table may use all shares and masks that there are, so every order up to 7 is allowed.
 */
#include "engine.h"

#include <inttypes.h>
#include <stdio.h>
#include <stdlib.h>

#include "calduvren.h"

static void expect(int expected, const char *name, calduvren_status status, size_t size)
{
    if (expected)
        return;
    printf("bench: the engine's %s gave %" PRIu64 " and a set of %zu wires\n", name, status, size);
    exit(1);
}

uint64_t engine_range_check(const struct range *range, uint16_t *set)
{
    uint64_t clean = 0, rank = 0;
    size_t found = 0;
    calduvren_status status = calduvren_range_check(range->table, CALDUVREN_RECORD_BYTES * range->wires,
                                                    CALDUVREN_MAX_SHARES, CALDUVREN_MAX_MASKS, range->notion,
                                                    range->size, range->from, range->to, set, CALDUVREN_MAX_SIZE,
                                                    &clean, &found, &rank);
    expect(status == CALDUVREN_OK && (clean || found == range->size), "range check", status, found);
    return clean ? range->to : rank;
}

typedef calduvren_status verdict(const uint8_t *table, size_t table_length, size_t shares, size_t masks, size_t notion,
                                 size_t order, uint16_t *set, size_t set_length, uint64_t *holds, size_t *size);

static size_t first_size(verdict *told, const char *name, const uint8_t *table, size_t wires, size_t notion,
                         size_t order, uint16_t *set)
{
    uint64_t holds = 0;
    size_t size = 0;
    calduvren_status status = told(table, CALDUVREN_RECORD_BYTES * wires, CALDUVREN_MAX_SHARES, CALDUVREN_MAX_MASKS,
                                   notion, order, set, CALDUVREN_MAX_SIZE, &holds, &size);
    expect(status == CALDUVREN_OK && (holds || (0 < size && size <= order)), name, status, size);
    return holds ? 0 : size;
}

size_t engine_verdict(const uint8_t *table, size_t wires, size_t notion, size_t order, uint16_t *set)
{
    return first_size(calduvren_verdict, "verdict", table, wires, notion, order, set);
}

size_t engine_directed_verdict(const uint8_t *table, size_t wires, size_t notion, size_t order, uint16_t *set)
{
    return first_size(calduvren_directed_verdict, "directed verdict", table, wires, notion, order, set);
}
