/*
 * The times of directed_times.h.
 */
#include "directed_times.h"

#include <inttypes.h>
#include <stdio.h>

#include "calduvren.h"
#include "directed.h"
#include "engine.h"
#include "sets.h"
#include "tables.h"
#include "turns.h"

#define TARGET_C 2.0 /* engine to C */
#define TARGET_WALK 3.0 /* directed verdict to verdict */
#define MILLISECOND 1e6 /* in nanoseconds */

static void search_c(const struct task *task)
{
    uint16_t set[CALDUVREN_MAX_SIZE];
    must_hold(directed_verdict(table, task->wires, task->notion, task->size, set) == 0, "C directed");
}

static void search_directed(const struct task *task)
{
    uint16_t set[CALDUVREN_MAX_SIZE];
    must_hold(engine_directed_verdict(table, task->wires, task->notion, task->size, set) == 0, "the directed verdict");
}

enum { C, DIRECTED, WALK, SEARCHES };

static search *const searches[SEARCHES] = {search_c, search_directed, search_verdict};

static uint64_t nodes_of(const struct task *task)
{
    return directed_nodes(table, task->wires, task->notion, task->size);
}

static void print_task(const struct task *task, const char *name)
{
    printf("%-14s %-6s %5zu %5zu", name, notion_name(task->notion), task->wires, task->size);
}

/* On a gadget the walk would take hours: it is left out. */
static void time_gadget(const struct task *task, const char *name)
{
    double times[SEARCHES][TURNS];
    const uint64_t nodes = nodes_of(task);
    time_by_turns(searches, WALK, task, times);
    print_task(task, name);
    printf(" %9" PRIu64 " %7.1f %9.3f %9.3f", nodes, median(times[C]) / (double)nodes, median(times[C]) / MILLISECOND,
           median(times[DIRECTED]) / MILLISECOND);
    print_ratio(times[C], times[DIRECTED], TARGET_C);
    printf("\n");
    fflush(stdout);
}

static void time_gadgets(void)
{
    static const char *const gadgets[][2] = {{"ISW 5", "gadgets/isw-5.txt"},
                                             {"ISW 6", "gadgets/isw-6.txt"},
                                             {"ISW 7", "gadgets/isw-7.txt"},
                                             {"figure 8", "gadgets/figure-8.txt"},
                                             {"figure 9", "gadgets/figure-9.txt"}};
    printf("%-14s %-6s %5s %5s %9s %7s %9s %9s %6s %6s\n", "gadget", "notion", "wires", "order", "nodes", "a node", "C",
           "directed", "ratio", "least");
    for (size_t i = 0; i < sizeof gadgets / sizeof gadgets[0]; i++)
        for (size_t notion = CALDUVREN_NI; notion <= CALDUVREN_SNI; notion++) {
            struct task task = {0, notion, 0};
            task.wires = fill_gadget(gadgets[i][1], &task.size);
            time_gadget(&task, gadgets[i][0]);
        }
}

static void time_against_walk(const struct task *task, const char *name, double target)
{
    double times[SEARCHES][TURNS];
    time_by_turns(searches, SEARCHES, task, times);
    print_task(task, name);
    printf(" %9" PRIu64 " %9.3f %9.3f %9.3f", nodes_of(task), median(times[C]) / MILLISECOND,
           median(times[WALK]) / MILLISECOND, median(times[DIRECTED]) / MILLISECOND);
    print_ratio(times[WALK], times[DIRECTED], target);
    printf("\n");
    fflush(stdout);
}

static void time_both_notions(size_t wires, size_t order, const char *name, double target)
{
    for (size_t notion = CALDUVREN_NI; notion <= CALDUVREN_SNI; notion++)
        time_against_walk(&(struct task){wires, notion, order}, name, target);
}

static void time_tables(void)
{
    printf("%-14s %-6s %5s %5s %9s %9s %9s %9s %6s %6s\n", "masks", "notion", "wires", "order", "nodes", "C", "verdict",
           "directed", "ratio", "least");
    fill_few_masks(60, 10);
    time_both_notions(60, 6, "10, at random", TARGET_WALK);
    fill_few_masks(100, 20);
    time_both_notions(100, 5, "20, at random", TARGET_WALK);
    fill_same_mask(60);
    time_both_notions(60, 6, "one, in all", TARGET_WALK);
    fill_unmasked(60);
    time_both_notions(60, 6, "none", TARGET_WALK);
    fill_dense_masks(60); /* no target: here the walk is the search to take */
    time_both_notions(60, 5, "64, dense", 0);
}

void time_directed(void)
{
    printf("the directed verdict: milliseconds, medians of %d turns; under `a node`, nanoseconds of C\n", TURNS);
    printf("targets: directed verdict to C at most %.1f, to the verdict at most %.1f\n\n", TARGET_C, TARGET_WALK);
    time_gadgets();
    printf("\n");
    time_tables();
}
