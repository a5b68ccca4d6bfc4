/*
 * The timing of turns.h.
 */
#define _POSIX_C_SOURCE 199309L /* for clock_gettime */
#include "turns.h"

#include <stdio.h>
#include <stdlib.h>
#include <time.h>

#include "calduvren.h"
#include "engine.h"
#include "tables.h"

#define TURN_SECONDS 0.04 /* a turn repeats its search for so long: one alone may take less than a millisecond */

void must_hold(int holds, const char *name)
{
    if (holds)
        return;
    printf("bench: %s finds a breaking set in a table that holds\n", name);
    exit(1);
}

void search_verdict(const struct task *task)
{
    uint16_t set[CALDUVREN_MAX_SIZE];
    must_hold(engine_verdict(table, task->wires, task->notion, task->size, set) == 0, "the verdict");
}

const char *notion_name(size_t notion)
{
    return notion == CALDUVREN_NI ? "NI" : "SNI";
}

static double seconds(void)
{
    struct timespec now;
    clock_gettime(CLOCK_MONOTONIC, &now);
    return (double)now.tv_sec + 1e-9 * (double)now.tv_nsec;
}

/* One turn: the nanoseconds of one search. */
static double nanoseconds(search *searched, const struct task *task)
{
    unsigned times = 0;
    double start = seconds(), end = start;
    for (; end - start < TURN_SECONDS; times++) {
        searched(task);
        end = seconds();
    }
    return 1e9 * (end - start) / (double)times;
}

static int rising(const void *left, const void *right)
{
    double x = *(const double *)left, y = *(const double *)right;
    return (x > y) - (x < y);
}

void time_by_turns(search *const *searches, size_t number, const struct task *task, double (*times)[TURNS])
{
    for (size_t i = 0; i < number; i++)
        searches[i](task); /* warming */
    for (size_t turn = 0; turn < TURNS; turn++)
        for (size_t i = 0; i < number; i++)
            times[i][turn] = nanoseconds(searches[i], task);
    for (size_t i = 0; i < number; i++)
        qsort(times[i], TURNS, sizeof times[i][0], rising);
}

double median(const double *times)
{
    return times[TURNS / 2];
}

void print_ratio(const double *yardstick, const double *held, double target)
{
    double ratio = median(held) / median(yardstick);
    printf(" %6.2f %6.2f %4s", ratio, held[0] / yardstick[0], target == 0 ? "" : ratio <= target ? "ok" : "not");
}
