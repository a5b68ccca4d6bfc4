/*
 * Searches over tables that hold, timed by turns: what else the machine does falls on all of them alike. No search may
 * find a breaking set; one that does ends the run.
 */
#ifndef TURNS_H
#define TURNS_H

#include <stddef.h>

#define TURNS 7 /* odd, so that there is a median */

/* What is searched: the sets of `size` out of the table's wires, or those of every size from 1 to it. */
struct task {
    size_t wires, notion, size;
};

typedef void search(const struct task *task);

/* Ends the run where a search, by its name, found a breaking set. */
void must_hold(int holds, const char *name);

/* The engine's verdict at the order that is the task's size. */
void search_verdict(const struct task *task);

const char *notion_name(size_t notion);

/* Times some searches by turns. Each gets the nanoseconds of one search, in each of its turns; they rise. */
void time_by_turns(search *const *searches, size_t number, const struct task *task, double (*times)[TURNS]);

double median(const double *times);

/* Prints the ratio of the medians of what is held against a yardstick, that of the least of the turns, and whether the
 * first is within the target; a target of 0 is none. */
void print_ratio(const double *yardstick, const double *held, double target);

#endif
