/*
 * The times of pool_times.h.
 */
#include "pool_times.h"

#include <inttypes.h>
#include <stdio.h>
#include <stdlib.h>
#include <string.h>

#include "calduvren.h"
#include "pool.h"
#include "sets.h"
#include "tables.h"
#include "turns.h"

#define TARGET_SECONDS 2.0
#define TARGET_GROWTH 1.5 /* of the time a report, between lists of different length */
#define MILLISECOND 1e6 /* in nanoseconds */
#define MANY_REPORTS 65536
#define MOST_REPORTS 131072
#define RANDOM_LISTS 5000
#define FEW_WIRES 16
#define FEW_REPORTS 12 /* of a size */

/* The list that is pooled, how many reports it has, and the ranks at which a size is cut. */
static uint8_t reports[(MOST_REPORTS + CALDUVREN_MAX_SIZE) * CALDUVREN_FILED_REPORT_BYTES];
static size_t number;
static uint64_t cuts[MOST_REPORTS + 1];

static void file_report(size_t notion, size_t size, uint64_t from, uint64_t to)
{
    calduvren_status status = calduvren_filed_report(notion, size, from, to, 1, 0,
                                                     reports + CALDUVREN_FILED_REPORT_BYTES * number++,
                                                     CALDUVREN_FILED_REPORT_BYTES);
    if (status == CALDUVREN_OK)
        return;
    printf("bench: a report is refused with %" PRIu64 "\n", status);
    exit(1);
}

static int rising(const void *left, const void *right)
{
    uint64_t x = *(const uint64_t *)left, y = *(const uint64_t *)right;
    return (x > y) - (x < y);
}

/* Cuts the ranks of a size in so many parts, of one length or at random ranks. */
static void cut(uint64_t sets, size_t parts, int evenly)
{
    for (size_t i = 0; i <= parts; i++)
        cuts[i] = evenly ? i * sets / parts : random_below(sets + 1);
    cuts[0] = 0;
    cuts[parts] = sets;
    qsort(cuts, parts + 1, sizeof cuts[0], rising);
}

static void shuffle(void)
{
    for (size_t left = number; left > 1; left--) {
        uint8_t *last = reports + CALDUVREN_FILED_REPORT_BYTES * (left - 1), kept[CALDUVREN_FILED_REPORT_BYTES];
        uint8_t *other = reports + CALDUVREN_FILED_REPORT_BYTES * random_below(left);
        memcpy(kept, last, sizeof kept);
        memmove(last, other, sizeof kept);
        memcpy(other, kept, sizeof kept);
    }
}

/* What the engine's pool tells, in the form of pool.h. */
static size_t engine_pool(size_t wires, size_t notion, size_t order, uint64_t *rank)
{
    uint64_t answer = 0;
    size_t size = 0;
    calduvren_status status = calduvren_pool(table, CALDUVREN_RECORD_BYTES * wires, CALDUVREN_MAX_SHARES,
                                             CALDUVREN_MAX_MASKS, notion, order, reports,
                                             CALDUVREN_FILED_REPORT_BYTES * number, &answer, &size, rank);
    if (status == CALDUVREN_OK && answer == CALDUVREN_POOL_HOLDS)
        return 0;
    if (status == CALDUVREN_OK && answer == CALDUVREN_POOL_UNCOVERED)
        return size;
    printf("bench: the engine's pool gave %" PRIu64 " and answer %" PRIu64 "\n", status, answer);
    exit(1);
}

/* Every size cut at random; some reports reach into those after them, and of one size in four one is missing. */
static void file_at_random(size_t wires, size_t notion, size_t order)
{
    number = 0;
    for (size_t size = 1; size <= order; size++) {
        size_t parts = 1 + random_below(FEW_REPORTS), missing = random_below(4) == 0 ? random_below(parts) : parts;
        cut(counts[wires][size], parts, 0);
        for (size_t i = 0; i < parts; i++)
            if (i != missing)
                file_report(notion, size, cuts[i], cuts[i + 1 + (random_below(8) == 0 ? random_below(parts - i) : 0)]);
    }
    shuffle();
}

static void compare_pools(void)
{
    unsigned told[2] = {0};
    for (unsigned i = 0; i < RANDOM_LISTS; i++) {
        size_t wires = random_below(FEW_WIRES + 1), notion = 1 + random_below(2);
        size_t order = 1 + random_below(CALDUVREN_MAX_ORDER);
        uint64_t ranks[2] = {0};
        file_at_random(wires, notion, order);
        size_t size = engine_pool(wires, notion, order, &ranks[0]);
        if (size != pool_by_sorting(wires, notion, order, reports, number, &ranks[1]) || ranks[0] != ranks[1]) {
            printf("bench: the engine's pool and C differ on a list of %zu reports\n", number);
            exit(1);
        }
        told[size != 0]++;
    }
    printf("the pool and C agree on %u random lists that cover all and %u that do not\n\n", told[0], told[1]);
    if (told[0] == 0 || told[1] == 0)
        exit(1);
}

static void must_cover(size_t size, const char *name)
{
    if (size == 0)
        return;
    printf("bench: %s misses ranks in a list that covers all\n", name);
    exit(1);
}

static void pool_c(const struct task *task)
{
    uint64_t rank = 0;
    must_cover(pool_by_sorting(task->wires, task->notion, task->size, reports, number, &rank), "C");
}

static void pool_engine(const struct task *task)
{
    uint64_t rank = 0;
    must_cover(engine_pool(task->wires, task->notion, task->size, &rank), "the pool");
}

enum { C, POOL, POOLS };

static search *const pools[POOLS] = {pool_c, pool_engine};

static const struct task task = {CALDUVREN_MAX_WIRES, CALDUVREN_NI, 3};

/* The list: one report for each smaller size, so that the order is covered, and then the parts. */
static void file_parts(size_t parts, int evenly, int falling)
{
    number = 0;
    for (size_t size = 1; size < task.size; size++)
        file_report(task.notion, size, 0, counts[task.wires][size]);
    cut(counts[task.wires][task.size], parts, evenly);
    for (size_t i = 0; i < parts; i++) {
        size_t part = falling ? parts - 1 - i : i;
        file_report(task.notion, task.size, cuts[part], cuts[part + 1]);
    }
}

/* Times both on the list, and prints a row. Returns the pool's nanoseconds a report. */
static double time_list(const char *name)
{
    double times[POOLS][TURNS];
    time_by_turns(pools, POOLS, &task, times);
    double a_report = median(times[POOL]) / (double)number;
    printf("%-26s %8zu %9.3f %9.3f %4s", name, number - (task.size - 1), median(times[C]) / MILLISECOND,
           median(times[POOL]) / MILLISECOND, median(times[POOL]) < 1e9 * TARGET_SECONDS ? "ok" : "not");
    print_ratio(times[C], times[POOL], 0);
    printf(" %9.1f\n", a_report);
    fflush(stdout);
    return a_report;
}

static void time_orders(void)
{
    file_parts(MANY_REPORTS, 1, 1);
    time_list("falling");
    file_parts(MANY_REPORTS, 1, 0);
    shuffle();
    time_list("shuffled");
    file_parts(MANY_REPORTS, 0, 0);
    shuffle();
    time_list("shuffled, cut at random");
}

/* Lists of rising reports, each twice as long as the one before. Returns the most time a report to the least: it is 1
 * where the time is linear in the list. */
static double time_lengths(void)
{
    double least = 0, most = 0;
    for (size_t parts = MOST_REPORTS / 8; parts <= MOST_REPORTS; parts *= 2) {
        file_parts(parts, 1, 0);
        double a_report = time_list("rising");
        least = least == 0 || a_report < least ? a_report : least;
        most = a_report > most ? a_report : most;
    }
    return most / least;
}

void time_pool(void)
{
    memset(table, 0, sizeof table); /* no wire holds anything, so that clean is true of all sets */
    compare_pools();
    printf("the pool: milliseconds, medians of %d turns; under `a report`, nanoseconds of the pool\n", TURNS);
    printf("targets: pool under %.0f seconds; the time a report, rising, at most %.1f times that in another list\n\n",
           TARGET_SECONDS, TARGET_GROWTH);
    printf("%-26s %8s %9s %9s %4s %6s %6s %4s %9s\n", "order", "reports", "C", "pool", "", "ratio", "least", "",
           "a report");
    double growth = time_lengths();
    time_orders();
    printf("rising, the most time a report to the least: %.2f %s\n", growth, growth <= TARGET_GROWTH ? "ok" : "not");
}
