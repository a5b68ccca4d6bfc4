/*
 * Times the engine's range check against the C of walk.h that keeps a running sum, and the engine's verdict against its
 * range check, in one run and by turns, over tables that hold: every set is visited. The directed verdict follows
 * (directed_times.h), then the pool (pool_times.h). Before that the searches have to agree (compare.h). A ratio is
 * called ok or not by its target; no time decides on the exit status. `bench/run` builds and runs it.
 *
 * exit status: 0 the times were printed; 1 the searches differ, or the pools
 */
#include <inttypes.h>
#include <stdio.h>

#include "calduvren.h"
#include "compare.h"
#include "directed_times.h"
#include "engine.h"
#include "pool_times.h"
#include "sets.h"
#include "tables.h"
#include "turns.h"
#include "walk.h"

#define TARGET_MASKED 1.2 /* engine to C */
#define TARGET_UNMASKED 1.5
#define TARGET_VERDICT 1.1 /* verdict to range checks */

static struct range all_ranks(const struct task *task, size_t size)
{
    return (struct range){table, task->wires, task->notion, size, 0, counts[task->wires][size]};
}

static void search_c(const struct task *task)
{
    uint16_t set[CALDUVREN_MAX_SIZE];
    struct range range = all_ranks(task, task->size);
    must_hold(walk_by_exchange(&range, set) == range.to, "C");
}

static void search_range(const struct task *task)
{
    uint16_t set[CALDUVREN_MAX_SIZE];
    struct range range = all_ranks(task, task->size);
    must_hold(engine_range_check(&range, set) == range.to, "the range check");
}

static void search_ranges(const struct task *task)
{
    for (size_t size = 1; size <= task->size; size++)
        search_range(&(struct task){task->wires, task->notion, size});
}

enum { C, RANGE, RANGES, VERDICT, SEARCHES };

static search *const searches[SEARCHES] = {search_c, search_range, search_ranges, search_verdict};

/* How many sets a search of the sizes from `least` visits. */
static double visited(const struct task *task, size_t least)
{
    uint64_t sets = 0;
    for (size_t size = least; size <= task->size; size++)
        sets += counts[task->wires][size];
    return (double)sets;
}

/* Prints the medians of a yardstick and of what is held against it, in nanoseconds a set, and their ratio. */
static void print_pair(const double *yardstick, const double *held, double sets, double target)
{
    printf(" %7.2f %7.2f", median(yardstick) / sets, median(held) / sets);
    print_ratio(yardstick, held, target);
}

/* Times all four by turns, and prints a row. */
static void time_task(const struct task *task, const char *name, double target)
{
    double times[SEARCHES][TURNS];
    time_by_turns(searches, SEARCHES, task, times);
    printf("%-8s %-6s %5zu %4zu", name, notion_name(task->notion), task->wires, task->size);
    print_pair(times[C], times[RANGE], visited(task, task->size), target);
    printf("   ");
    print_pair(times[RANGES], times[VERDICT], visited(task, 1), TARGET_VERDICT);
    printf("\n");
    fflush(stdout);
}

static void time_both_notions(size_t wires, size_t size, const char *name, double target)
{
    for (size_t notion = CALDUVREN_NI; notion <= CALDUVREN_SNI; notion++)
        time_task(&(struct task){wires, notion, size}, name, target);
}

static void print_head(void)
{
    printf("nanoseconds a set, medians of %d turns; the ratio is that of the medians, beside it that of the least\n",
           TURNS);
    printf("targets: range check to C at most %.1f where masks remain, %.1f where there are none;"
           " verdict to range checks at most %.1f\n\n", TARGET_MASKED, TARGET_UNMASKED, TARGET_VERDICT);
    printf("%-26s %34s   %34s\n", "", "all sets of the size", "all sets of the sizes from 1");
    printf("%-8s %-6s %5s %4s", "masks", "notion", "wires", "size");
    printf(" %7s %7s %6s %6s %4s   ", "C", "range", "ratio", "least", "");
    printf(" %7s %7s %6s %6s\n", "ranges", "verdict", "ratio", "least");
}

int main(void)
{
    static const struct {
        size_t wires, size;
    } shapes[] = {{100, 4}, {60, 5}, {34, 7}};
    const size_t number = sizeof shapes / sizeof shapes[0];
    sets_prepare();
    compare_random();
    for (size_t i = 0; i < number; i++)
        compare_planted(shapes[i].wires, shapes[i].size);
    printf("all agree on tables of the timed shapes in which one set breaks\n\n");
    print_head();
    for (size_t i = 0; i < number; i++) {
        fill_masked(shapes[i].wires);
        time_both_notions(shapes[i].wires, shapes[i].size, "remain", TARGET_MASKED);
        fill_unmasked(shapes[i].wires);
        time_both_notions(shapes[i].wires, shapes[i].size, "none", TARGET_UNMASKED);
    }
    printf("\n");
    time_directed();
    printf("\n");
    time_pool();
    return 0;
}
