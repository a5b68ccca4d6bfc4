/*
 * The search of directed.h. For each size it goes through the wires as the highest one of a set, and from there down
 * through the carriers of masks. What it finds of a size it keeps by least rank.
 */
#include "directed.h"

#include <string.h>

#include "calduvren.h"
#include "sets.h"

enum { OPEN, CHOSEN, CLOSED };

/* What a search looks at, and what it has found. */
struct search {
    const uint8_t *table;
    size_t wires, notion;
    uint16_t carriers[CALDUVREN_MAX_WIRES][CALDUVREN_MAX_MASKS]; /* 1 + the highest wire below with the mask, or 0 */
    uint8_t rising[CALDUVREN_MAX_MASKS]; /* the masks, those that few wires carry first */
    size_t size, top; /* the size that is searched, and the highest wire of the sets */
    uint64_t best; /* the least breaking rank so far, or the number of sets */
    uint64_t nodes;
};

/* The chosen wires of a set that grows: what each wire is, the sum of the chosen ones, how many of them pay, and how
 * many are still to be chosen. */
struct node {
    uint8_t marks[CALDUVREN_MAX_WIRES];
    struct sum sum;
    size_t paid, left;
};

static uint64_t masks_of(const uint8_t *table, size_t wire)
{
    struct sum sum = {0, 0, 0, 0};
    add(&sum, table, wire);
    return sum.masks;
}

/* Fills the carriers, and tells of each mask how many wires carry it. */
static void fill_carriers(struct search *search, size_t *carried)
{
    uint16_t below[CALDUVREN_MAX_MASKS] = {0};
    for (size_t wire = 0; wire < search->wires; wire++) {
        uint64_t masks = masks_of(search->table, wire);
        memcpy(search->carriers[wire], below, sizeof below);
        for (size_t mask = 0; mask < CALDUVREN_MAX_MASKS; mask++)
            if (masks >> mask & 1) {
                below[mask] = (uint16_t)(wire + 1);
                carried[mask]++;
            }
    }
}

/* Sorts the masks by how many wires carry them; of equals the lower mask comes first. */
static void fill_rising(struct search *search, const size_t *carried)
{
    for (size_t mask = 0; mask < CALDUVREN_MAX_MASKS; mask++) {
        size_t place = mask;
        for (; place > 0 && carried[search->rising[place - 1]] > carried[mask]; place--)
            search->rising[place] = search->rising[place - 1];
        search->rising[place] = (uint8_t)mask;
    }
}

/* The rarest of some masks. */
static inline size_t rarest(const struct search *search, uint64_t masks)
{
    size_t place = 0;
    while ((masks >> search->rising[place] & 1) == 0)
        place++;
    return search->rising[place];
}

/* The rank of the chosen wires: the lower ones stand before their highest in reverse. */
static uint64_t rank_of(const struct search *search, const uint8_t *marks)
{
    uint64_t rank = 0;
    size_t size = 0;
    for (size_t wire = 0; wire <= search->top; wire++)
        if (marks[wire] == CHOSEN) {
            size++;
            rank = counts[wire + 1][size] - 1 - rank;
        }
    return rank;
}

/* Keeps the chosen wires, which break the notion, where they come before what was found. */
static void keep(struct search *search, const uint8_t *marks)
{
    uint64_t rank = rank_of(search, marks);
    if (rank < search->best)
        search->best = rank;
}

static inline void choose(const struct search *search, struct node *node, size_t wire)
{
    node->marks[wire] = CHOSEN;
    add(&node->sum, search->table, wire);
    node->paid += pays(search->table, search->notion, wire);
    node->left--;
}

/* The last wire of a set: of the mask's carriers only those that leave no mask. */
static inline void choose_last(struct search *search, struct node *node, size_t mask)
{
    for (size_t next = search->carriers[search->top][mask]; next > 0; next = search->carriers[next - 1][mask]) {
        if (node->marks[next - 1] != OPEN || masks_of(search->table, next - 1) != node->sum.masks)
            continue;
        struct sum sum = node->sum;
        add(&sum, search->table, next - 1);
        if (breaks(&sum, node->paid + pays(search->table, search->notion, next - 1))) {
            node->marks[next - 1] = CHOSEN;
            keep(search, node->marks);
            node->marks[next - 1] = CLOSED;
        }
    }
}

typedef void visitor(struct search *search, struct node *node);

/* Goes on with each carrier of one mask of the sum. One that was tried is closed in what comes after, so that no set is
 * met twice; each branch has its own copy of the marks. It is always inlined, or gcc would call through the pointer. */
static inline __attribute__((always_inline)) void visit(struct search *search, struct node *node, visitor *visit_next)
{
    if (node->left == 0 && breaks(&node->sum, node->paid))
        keep(search, node->marks);
    if (node->left == 0 || node->sum.masks == 0)
        return;
    size_t mask = rarest(search, node->sum.masks);
    if (node->left == 1) {
        choose_last(search, node, mask);
        return;
    }
    for (size_t next = search->carriers[search->top][mask]; next > 0; next = search->carriers[next - 1][mask])
        if (node->marks[next - 1] == OPEN) {
            struct node longer = *node;
            choose(search, &longer, next - 1);
            visit_next(search, &longer);
            node->marks[next - 1] = CLOSED;
        }
}

static void visit_timed(struct search *search, struct node *node)
{
    visit(search, node, visit_timed);
}

/* Apart from the search that is timed, so that counting costs that nothing. */
static void visit_counted(struct search *search, struct node *node)
{
    search->nodes += node->left > 0 && node->sum.masks != 0;
    visit(search, node, visit_counted);
}

/* Searches the sets of a size by their highest wire. Those of a lower one come first in rank, so the first wire with a
 * set that breaks ends it. */
static int size_breaks(struct search *search, visitor *visit_first)
{
    const uint64_t sets = counts[search->wires][search->size];
    search->best = sets;
    for (search->top = 0; search->top < search->wires && search->best == sets; search->top++) {
        struct node node = {{0}, {0, 0, 0, 0}, 0, search->size};
        memset(node.marks, CLOSED, sizeof node.marks);
        memset(node.marks, OPEN, search->top);
        choose(search, &node, search->top);
        visit_first(search, &node);
    }
    return search->best < sets;
}

/* The least size up to the order that breaks, or 0. */
static size_t first_size(struct search *search, size_t order, visitor *visit_first)
{
    size_t carried[CALDUVREN_MAX_MASKS] = {0};
    fill_carriers(search, carried);
    fill_rising(search, carried);
    for (search->size = 1; search->size <= order; search->size++)
        if (size_breaks(search, visit_first))
            return search->size;
    return 0;
}

size_t directed_verdict(const uint8_t *table, size_t wires, size_t notion, size_t order, uint16_t *set)
{
    struct search search = {.table = table, .wires = wires, .notion = notion};
    size_t size = first_size(&search, order, visit_timed);
    if (size > 0)
        unrank(wires, size, search.best, set);
    return size;
}

uint64_t directed_nodes(const uint8_t *table, size_t wires, size_t notion, size_t order)
{
    struct search search = {.table = table, .wires = wires, .notion = notion};
    first_size(&search, order, visit_counted);
    return search.nodes;
}
