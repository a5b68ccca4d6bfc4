/*
 * The pool of pool.h.
 */
#include "pool.h"

#include <stdio.h>
#include <stdlib.h>
#include <string.h>

#include "calduvren.h"
#include "sets.h"

struct report {
    uint8_t notion, size, filling[6];
    uint64_t from, to, found; /* x86-64 is little-endian, as the reports are */
};

static void expect(int expected, const char *what)
{
    if (expected)
        return;
    printf("bench: C pools no such list: %s\n", what);
    exit(1);
}

static int by_size_and_rank(const void *left, const void *right)
{
    const struct report *x = left, *y = right;
    if (x->size != y->size)
        return x->size < y->size ? -1 : 1;
    return (x->from > y->from) - (x->from < y->from);
}

static int is_clean_report(const struct report *report, size_t wires, size_t notion, size_t order)
{
    static const uint8_t zeros[sizeof report->filling];
    return report->notion == notion && 1 <= report->size && report->size <= order &&
           memcmp(report->filling, zeros, sizeof zeros) == 0 && report->from <= report->to &&
           report->to <= counts[wires][report->size] && report->found == UINT64_MAX;
}

size_t pool_by_sorting(size_t wires, size_t notion, size_t order, const uint8_t *reports, size_t number,
                       uint64_t *rank)
{
    struct report *sorted = malloc(sizeof *sorted * (number + 1));
    size_t first = 0, next = 0;
    expect(sorted != NULL, "no memory");
    memcpy(sorted, reports, sizeof *sorted * number);
    for (size_t i = 0; i < number; i++)
        expect(is_clean_report(&sorted[i], wires, notion, order), "a report of another form, or not clean");
    qsort(sorted, number, sizeof *sorted, by_size_and_rank);
    for (size_t size = 1; size <= order && first == 0; size++) {
        uint64_t covered = 0; /* the ranks below it */
        for (; next < number && sorted[next].size == size; next++)
            if (sorted[next].from <= covered && covered < sorted[next].to)
                covered = sorted[next].to;
        if (covered < counts[wires][size]) {
            first = size;
            *rank = covered;
        }
    }
    free(sorted);
    return first;
}
