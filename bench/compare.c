/*
 * The comparisons of compare.h: answer, rank and set.
 */
#include "compare.h"

#include <inttypes.h>
#include <stdio.h>
#include <stdlib.h>
#include <string.h>

#include "calduvren.h"
#include "directed.h"
#include "engine.h"
#include "sets.h"
#include "tables.h"
#include "walk.h"

#define RANDOM_TABLES 2000
#define RANDOM_RANKS 500
#define FEW_WIRES 16
#define VERDICT_WIRES 12 /* 3,301 sets of up to 7 wires */
#define SEARCHES 3
#define VERDICTS 3

static const struct {
    const char *name;
    uint64_t (*first_breaking)(const struct range *range, uint16_t *set);
} searches[SEARCHES] = {
    {"the engine", engine_range_check},
    {"C by rank", walk_by_rank},
    {"C by exchange", walk_by_exchange},
};

static const struct {
    const char *name;
    size_t (*first_size)(const uint8_t *table, size_t wires, size_t notion, size_t order, uint16_t *set);
} verdicts[VERDICTS] = {
    {"the verdict", engine_verdict},
    {"the directed verdict", engine_directed_verdict},
    {"C directed", directed_verdict},
};

/* What all three searches find first: its rank, with its set in `set`, or `to`. */
static uint64_t agreed(const struct range *range, uint16_t *set)
{
    uint16_t sets[SEARCHES][CALDUVREN_MAX_SIZE];
    uint64_t ranks[SEARCHES];
    for (size_t i = 0; i < SEARCHES; i++) {
        ranks[i] = searches[i].first_breaking(range, sets[i]);
        if (ranks[i] != ranks[0] ||
            (ranks[0] < range->to && memcmp(sets[i], sets[0], sizeof *set * range->size) != 0)) {
            printf("bench: %zu wires, notion %zu, size %zu, ranks %" PRIu64 " to %" PRIu64 ": %s gives %" PRIu64
                   ", %s %" PRIu64 ", or another set\n", range->wires, range->notion, range->size, range->from,
                   range->to, searches[0].name, ranks[0], searches[i].name, ranks[i]);
            exit(1);
        }
    }
    if (ranks[0] < range->to)
        memcpy(set, sets[0], sizeof *set * range->size);
    return ranks[0];
}

/* What the searches find first in rising size, and the verdicts too: the size, or 0 where none up to the order
 * breaks. */
static size_t agreed_verdict(size_t wires, size_t notion, size_t order)
{
    uint16_t set[CALDUVREN_MAX_SIZE], first[CALDUVREN_MAX_SIZE];
    size_t found = 0;
    for (size_t size = 1; size <= order && found == 0; size++) {
        struct range range = {table, wires, notion, size, 0, counts[wires][size]};
        if (agreed(&range, first) < range.to)
            found = size;
    }
    for (size_t i = 0; i < VERDICTS; i++) {
        size_t told = verdicts[i].first_size(table, wires, notion, order, set);
        if (told != found || memcmp(set, first, sizeof *set * found) != 0) {
            printf("bench: %zu wires, notion %zu, order %zu: %s gives size %zu, the searches give %zu, or another"
                   " set\n", wires, notion, order, verdicts[i].name, told, found);
            exit(1);
        }
    }
    return found;
}

/* Ranges of one size; after a breaking set the rest of the range is searched. */
static void compare_ranges(void)
{
    unsigned broken = 0, held = 0;
    uint16_t set[CALDUVREN_MAX_SIZE];
    for (unsigned i = 0; i < RANDOM_TABLES; i++) {
        size_t most_wires = i % 2 == 0 ? FEW_WIRES : CALDUVREN_MAX_WIRES;
        struct range range = {table, random_below(most_wires + 1), 1 + random_below(2), random_below(8), 0, 0};
        uint64_t sets = counts[range.wires][range.size];
        range.from = i % 4 < 2 ? 0 : random_below(sets + 1);
        range.to = sets - range.from < RANDOM_RANKS ? sets : range.from + RANDOM_RANKS;
        fill_mixed(range.wires);
        while (range.from < range.to) {
            uint64_t rank = agreed(&range, set);
            broken += rank < range.to;
            held += rank == range.to;
            range.from = rank + 1;
        }
    }
    printf("range check, C by rank and C by exchange agree on %u random ranges that break and %u that hold\n", broken,
           held);
    if (broken == 0 || held == 0)
        exit(1);
}

/* Verdicts, on tables that mostly break at size 1 and on tables in which one set breaks, of any size. */
static void compare_verdicts(void)
{
    unsigned told[CALDUVREN_MAX_SIZE + 1] = {0};
    for (unsigned i = 0; i < RANDOM_TABLES; i++) {
        size_t wires = CALDUVREN_MAX_SIZE + random_below(VERDICT_WIRES + 1 - CALDUVREN_MAX_SIZE);
        if (i % 2 == 0)
            fill_mixed(wires);
        else
            fill_planted(wires, 1 + random_below(CALDUVREN_MAX_SIZE));
        told[agreed_verdict(wires, 1 + random_below(2), 1 + random_below(CALDUVREN_MAX_ORDER))]++;
    }
    printf("the verdict, the directed verdict and C directed agree with them on %u random tables that hold, and by size"
           " from 1 on those that break:", told[0]);
    for (size_t size = 1; size <= CALDUVREN_MAX_SIZE; size++)
        printf(" %u", told[size]);
    printf("\n");
    for (size_t size = 0; size <= CALDUVREN_MAX_SIZE; size++)
        if (told[size] == 0)
            exit(1);
}

void compare_random(void)
{
    compare_ranges();
    compare_verdicts();
}

void compare_planted(size_t wires, size_t size)
{
    for (size_t notion = CALDUVREN_NI; notion <= CALDUVREN_SNI; notion++) {
        fill_planted(wires, size);
        if (agreed_verdict(wires, notion, size) != size) {
            printf("bench: %zu wires, notion %zu, size %zu: the one set that breaks is not found\n", wires, notion,
                   size);
            exit(1);
        }
    }
}
