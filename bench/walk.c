/*
 * The two searches of walk.h (scope, "Breaking sets" and "Numbering and dividing").
 */
#include "walk.h"

#include <string.h>

#include "calduvren.h"
#include "sets.h"

static inline int set_breaks(const struct range *range, const uint16_t *set)
{
    struct sum sum = {0, 0, 0, 0};
    size_t paid = 0;
    for (size_t i = 0; i < range->size; i++)
        add(&sum, range->table, set[i]);
    if (sum.masks != 0)
        return 0;
    for (size_t i = 0; i < range->size; i++)
        paid += pays(range->table, range->notion, set[i]);
    return exceeds(&sum, paid);
}

uint64_t walk_by_rank(const struct range *range, uint16_t *set)
{
    for (uint64_t rank = range->from; rank < range->to; rank++) {
        unrank(range->wires, range->size, rank, set);
        if (set_breaks(range, set))
            return rank;
    }
    return range->to;
}

/* The sum of a set and how many of its wires pay, while wires leave and enter. */
struct running {
    struct sum sum;
    size_t paid;
};

static inline void exchange(struct running *running, const struct range *range, size_t leaves, size_t enters)
{
    add(&running->sum, range->table, leaves);
    add(&running->sum, range->table, enters);
    if (range->notion != CALDUVREN_NI)
        running->paid += pays(range->table, range->notion, enters) - pays(range->table, range->notion, leaves);
}

/* How many steps in a row move the lowest wire alone, by one: upwards where the size is odd, downwards where it is
 * even. `c` holds a set, rising, and the number of wires after it. */
static inline uint64_t steps_of_lowest(const uint16_t *c, size_t size)
{
    if (size == 0)
        return 0;
    return size % 2 == 1 ? c[1] - c[0] - (uint64_t)1 : c[0];
}

/*
 * The step that comes after those: R4 and R5, by turns, of Algorithm R in Knuth, The Art of Computer Programming,
 * section 7.2.1.3. R4 lowers c[i], which is one above c[i - 1]; R5 raises c[i], where c[i - 1] is i - 1.
 */
static inline void turn(uint16_t *c, struct running *running, const struct range *range)
{
    int lower = range->size % 2 == 1;
    for (size_t i = 1;; i++, lower = !lower) {
        size_t wire = c[i];
        if (lower && wire > i) {
            c[i] = c[i - 1];
            c[i - 1] = (uint16_t)(i - 1);
            exchange(running, range, wire, i - 1);
            return;
        }
        if (!lower && wire + 1 < c[i + 1]) {
            c[i - 1] = c[i];
            c[i] = (uint16_t)(wire + 1);
            exchange(running, range, i - 1, wire + 1);
            return;
        }
    }
}

/* The set at the first rank, and its sum. */
static inline struct running start(const struct range *range, uint16_t *c)
{
    struct running running = {{0, 0, 0, 0}, 0};
    unrank(range->wires, range->size, range->from, c);
    c[range->size] = (uint16_t)range->wires;
    for (size_t i = 0; i < range->size; i++) {
        add(&running.sum, range->table, c[i]);
        running.paid += pays(range->table, range->notion, c[i]);
    }
    return running;
}

uint64_t walk_by_exchange(const struct range *given, uint16_t *set)
{
    const struct range range = *given; /* a copy, which the compiler may keep in registers */
    const size_t move = range.size % 2 == 1 ? 1 : (size_t)-1;
    uint16_t c[CALDUVREN_MAX_SIZE + 1];
    if (range.from == range.to)
        return range.to;
    struct running running = start(&range, c);
    for (uint64_t rank = range.from;; turn(c, &running, &range)) {
        uint64_t last = rank + steps_of_lowest(c, range.size);
        if (last >= range.to)
            last = range.to - 1;
        size_t lowest = c[0];
        int broken;
        for (;; rank++) {
            broken = breaks(&running.sum, running.paid);
            if (broken || rank == last)
                break;
            exchange(&running, &range, lowest, lowest + move);
            lowest += move;
        }
        c[0] = (uint16_t)lowest;
        if (broken) {
            memcpy(set, c, sizeof *set * range.size);
            return rank;
        }
        if (++rank == range.to)
            return rank;
    }
}
