/*
 * The fillings of tables.h.
 */
#include "tables.h"

#include <inttypes.h>
#include <stdio.h>
#include <stdlib.h>

#define ONE_OUTER_IN 4 /* wires: more than gadgets have, so that there is something to count under SNI */

uint8_t table[CALDUVREN_MAX_TABLE_BYTES];

/* Sebastiano Vigna's splitmix64. */
static uint64_t random_word(void)
{
    static uint64_t state;
    uint64_t word = state += 0x9e3779b97f4a7c15;
    word = (word ^ word >> 30) * 0xbf58476d1ce4e5b9;
    word = (word ^ word >> 27) * 0x94d049bb133111eb;
    return word ^ word >> 31;
}

uint64_t random_below(uint64_t bound)
{
    return random_word() % bound;
}

static void write_record(size_t wire, uint64_t products, uint64_t masks, uint64_t shares_a, uint64_t shares_b,
                         uint64_t outer)
{
    uint8_t *record = table + CALDUVREN_RECORD_BYTES * wire;
    for (size_t i = 0; i < 8; i++) {
        record[i] = (uint8_t)(products >> 8 * i);
        record[8 + i] = (uint8_t)(masks >> 8 * i);
    }
    record[16] = (uint8_t)shares_a;
    record[17] = (uint8_t)shares_b;
    record[18] = (uint8_t)outer;
}

/* Of 64 random masks no few wires' add up to none. */
void fill_masked(size_t wires)
{
    for (size_t wire = 0; wire < wires; wire++)
        write_record(wire, random_word(), random_word(), random_word(), random_word(),
                     random_below(ONE_OUTER_IN) == 0);
}

/*
 * One product an inner wire: the shares of a sum are never more than its inner wires, and often as many. An outer wire
 * pays for no share, so that one without a mask breaks SNI by itself unless it holds nothing. The outer wires here hold
 * no share: they add none to a sum, but under SNI what its shares are held against changes as they come and go. The
 * masks are at random from `lowest` up to, without, `lowest` + `settings`, as numbers.
 */
static void fill_harmless(size_t wires, uint64_t lowest, uint64_t settings)
{
    for (size_t wire = 0; wire < wires; wire++) {
        uint64_t outer = random_below(ONE_OUTER_IN) == 0;
        uint64_t products = outer ? 0 : (uint64_t)1 << random_below(64);
        write_record(wire, products, lowest + random_below(settings), 0, 0, outer);
    }
}

void fill_unmasked(size_t wires)
{
    fill_harmless(wires, 0, 1);
}

void fill_same_mask(size_t wires)
{
    fill_harmless(wires, 1, 1);
}

void fill_few_masks(size_t wires, size_t masks)
{
    fill_harmless(wires, 0, (uint64_t)1 << masks);
}

/* Each of the 64 masks is in seven wires of eight. */
void fill_dense_masks(size_t wires)
{
    fill_unmasked(wires);
    for (size_t wire = 0; wire < wires; wire++)
        for (size_t i = 8; i < 16; i++)
            table[CALDUVREN_RECORD_BYTES * wire + i] = (uint8_t)(random_word() | random_word() | random_word());
}

/* Few masks and few bits. */
void fill_mixed(size_t wires)
{
    uint64_t masks = (uint64_t)1 << random_below(10);
    for (size_t wire = 0; wire < wires; wire++)
        write_record(wire, random_below(3) ? (uint64_t)1 << random_below(64) : 0, random_below(masks),
                     random_below(4) ? 0 : 1 << random_below(8), random_below(4) ? 0 : 1 << random_below(8),
                     random_below(2));
}

/* The masks of the set add up to none and its products to all 64, which depend on eight shares: more than seven. */
void fill_planted(size_t wires, size_t size)
{
    uint8_t missing[16] = {255, 255, 255, 255, 255, 255, 255, 255}; /* products, then masks */
    size_t left = size;
    fill_masked(wires);
    for (size_t wire = 0; left > 0; wire++) {
        uint8_t *record = table + CALDUVREN_RECORD_BYTES * wire;
        if (random_below(wires - wire) >= left) /* so every set is as likely */
            continue;
        left--;
        for (size_t i = 0; i < sizeof missing; i++) {
            if (left == 0)
                record[i] = missing[i];
            missing[i] ^= record[i];
        }
    }
}

size_t fill_gadget(const char *name, size_t *order)
{
    uint8_t text[CALDUVREN_MAX_TEXT_BYTES];
    size_t length = 0, shares = 0, masks = 0, wires = 0, offset = 0;
    FILE *file = fopen(name, "rb");
    if (file != NULL) {
        length = fread(text, 1, sizeof text, file);
        fclose(file);
    }
    calduvren_status status = calduvren_read_text(text, length, table, sizeof table, order, &shares, &masks, &wires,
                                                  &offset);
    if (status == CALDUVREN_OK)
        return wires;
    printf("bench: %s is refused with %" PRIu64 " at %zu, or can not be read\n", name, status, offset);
    exit(1);
}
