/*
 * Calls every function of include/calduvren.h through its declaration and compares with what the scope says: accepted
 * inputs, its starred examples among them, and refusals, each with one argument alone out of range, so that a
 * declaration with its arguments in another order than the library's does not pass. (Their names are compared by
 * tests/outside.) All that is lent to be written is compared after each call, also what the call must not touch. Each
 * name of a refusal is compared with the scope's number and with what the library gives in such a case.
 *
 * build: gcc -std=c11 -Wall -Wextra -pedantic -Werror -I include tests/header/header.c
 *            -L crates/calduvren/out -lcalduvren -o target/header
 *        g++ -std=c++17 -Wall -Wextra -pedantic -Werror -I include -x c++ tests/header/header.c
 *            -L crates/calduvren/out -lcalduvren -o target/header
 *        (each one line, in the repository's root, with a folder `target` in it; `rt lib --cpu x86-64`, in the folder
 *        crates/calduvren, writes the library)
 * usage: target/header
 * exit status: 0 all names and calls agree; 1 what differs was printed
 */
#include <inttypes.h>
#include <stdio.h>
#include <string.h>

#include "calduvren.h"

#if CALDUVREN_VERSION < 10000 || CALDUVREN_VERSION > 999999
#error "CALDUVREN_VERSION is no major * 10000 + minor * 100 + patch with a major number from 1 to 99"
#endif
#if CALDUVREN_VERSION != 20400
#error "these are the calls of version 2.4.0"
#endif

/* All that a call may write. Before each call every byte of it is UNTOUCHED. */
struct answer {
    size_t order, shares, masks, wires, bytes, offset, length, size, of_a, of_b, allowed;
    uint64_t yes, holds, clean, rank, sets, from, to, masked, answer;
    uint64_t sets_by_size[CALDUVREN_MAX_ORDER + 1];
    uint16_t set[CALDUVREN_MAX_SIZE + 1];
    uint8_t table[CALDUVREN_MAX_TABLE_BYTES];
    uint8_t buffer[CALDUVREN_MAX_REPORT_BYTES];
    uint8_t text[CALDUVREN_MAX_TEXT_BYTES];
    uint8_t report[CALDUVREN_FILED_REPORT_BYTES + 1];
};
#define UNTOUCHED 0xD1

static struct answer lent, wanted;
static unsigned calls, differences;

/* The scope's texts A, B and C, and their wires: byte 0, byte 1, masks, a, b, outer, line, offset, length. */
static const char text_a[] = "ORDER = 1\nMASKS = [r0]\ns00 r0\ns11 ((r0 s01) s10)\n";
static const uint8_t wires_a[9][9] = {
    {1, 0, 0, 0, 0, 0, 0, 23, 3}, {0, 0, 1, 0, 0, 0, 0, 27, 2}, {1, 0, 1, 0, 0, 1, 0, 23, 6},
    {0, 2, 0, 0, 0, 0, 0, 30, 3}, {2, 0, 0, 0, 0, 0, 0, 39, 3}, {2, 0, 1, 0, 0, 0, 0, 36, 6},
    {0, 1, 0, 0, 0, 0, 0, 44, 3}, {2, 1, 1, 0, 0, 0, 0, 35, 12}, {2, 3, 1, 0, 0, 1, 1, 30, 18},
};
static const char text_b[] = "ORDER = 1\nMASKS = [r0]\ns00 r0\ns11 (s01 s10) r0\n";
static const uint8_t wires_b[9][9] = {
    {1, 0, 0, 0, 0, 0, 0, 23, 3}, {0, 0, 1, 0, 0, 0, 0, 27, 2}, {1, 0, 1, 0, 0, 1, 0, 23, 6},
    {0, 2, 0, 0, 0, 0, 0, 30, 3}, {2, 0, 0, 0, 0, 0, 0, 35, 3}, {0, 1, 0, 0, 0, 0, 0, 39, 3},
    {2, 1, 0, 0, 0, 0, 0, 35, 7}, {2, 3, 0, 0, 0, 0, 0, 30, 13}, {2, 3, 1, 0, 0, 1, 1, 30, 16},
};
static const char text_c[] = "ORDER = 1\nMASKS = []\na0 b0\na1 b1\n";
static const uint8_t wires_c[6][9] = {
    {0, 0, 0, 1, 0, 0, 0, 21, 2}, {0, 0, 0, 0, 1, 0, 0, 24, 2}, {0, 0, 0, 1, 1, 1, 0, 21, 5},
    {0, 0, 0, 2, 0, 0, 0, 27, 2}, {0, 0, 0, 0, 2, 0, 0, 30, 2}, {0, 0, 0, 2, 2, 1, 1, 27, 5},
};
/* The multiplication of Ishai, Sahai and Wagner. */
static const char isw_2[] =
    "ORDER = 2\nMASKS = [r0, r1, r2]\ns00 r0 r1\ns11 ((r0 s01) s10) r2\ns22 ((r1 s02) s20) ((r2 s12) s21)\n";
static const char isw_7[] =
    "ORDER = 7\n"
    "MASKS = [r0, r1, r2, r3, r4, r5, r6, r7, r8, r9, r10, r11, r12, r13, r14, r15, r16, r17, r18, r19, r20, r21, "
    "r22, r23, r24, r25, r26, r27]\n"
    "s00 r0 r1 r2 r3 r4 r5 r6\n"
    "s11 ((r0 s01) s10) r7 r8 r9 r10 r11 r12\n"
    "s22 ((r1 s02) s20) ((r7 s12) s21) r13 r14 r15 r16 r17\n"
    "s33 ((r2 s03) s30) ((r8 s13) s31) ((r13 s23) s32) r18 r19 r20 r21\n"
    "s44 ((r3 s04) s40) ((r9 s14) s41) ((r14 s24) s42) ((r18 s34) s43) r22 r23 r24\n"
    "s55 ((r4 s05) s50) ((r10 s15) s51) ((r15 s25) s52) ((r19 s35) s53) ((r22 s45) s54) r25 r26\n"
    "s66 ((r5 s06) s60) ((r11 s16) s61) ((r16 s26) s62) ((r20 s36) s63) ((r23 s46) s64) ((r25 s56) s65) r27\n"
    "s77 ((r6 s07) s70) ((r12 s17) s71) ((r17 s27) s72) ((r21 s37) s73) ((r24 s47) s74) ((r26 s57) s75) "
    "((r27 s67) s76)\n";
static uint8_t table_a[9 * CALDUVREN_RECORD_BYTES], table_b[sizeof table_a], table_c[6 * CALDUVREN_RECORD_BYTES];

/* Compares a call's status and all that was lent, and makes both ready for the next call. */
static void compare(const char *call, calduvren_status status, calduvren_status status_wanted)
{
    const uint8_t *left = (const uint8_t *)&lent, *expected = (const uint8_t *)&wanted;
    size_t at = 0;
    while (at < sizeof lent && left[at] == expected[at])
        at++;
    if (status != status_wanted)
        printf("header: %s\n    gave %" PRIu64 " and not %" PRIu64 "\n", call, status, status_wanted);
    if (at < sizeof lent)
        printf("header: %s\n    left %u and not %u in byte %zu of struct answer\n", call, left[at], expected[at], at);
    differences += status != status_wanted || at < sizeof lent;
    calls++;
    memset(&lent, UNTOUCHED, sizeof lent);
    memset(&wanted, UNTOUCHED, sizeof wanted);
}
#define ANSWERS(call) compare(#call, call, CALDUVREN_OK)
#define REFUSES(call, refusal) compare(#call, call, CALDUVREN_REFUSED_##refusal)

/* The refusals in the order of the scope's numbers, from 1. So none is missing, and no two have the same. */
#define REFUSALS 26u
#define NAMED(refusal) {#refusal, CALDUVREN_REFUSED_##refusal}
static const struct {
    const char *name;
    calduvren_status number;
} refusals[REFUSALS] = {
    NAMED(TEXT_TOO_LONG), NAMED(FIRST_LINE), NAMED(SECOND_LINE), NAMED(SYMBOL), NAMED(UNDECLARED_MASK),
    NAMED(PARENTHESIS), NAMED(BAR), NAMED(DEPTH), NAMED(LINES), NAMED(WIRES), NAMED(SHARES_OR_MASKS),
    NAMED(TABLE_LENGTH), NAMED(RECORD), NAMED(NOTION), NAMED(ORDER), NAMED(BUFFER), NAMED(SIZE), NAMED(RANKS),
    NAMED(JOBS), NAMED(FUNCTION), NAMED(WIRE_NUMBERS), NAMED(TEXT_PART), NAMED(ISW_ORDER), NAMED(ISW_ROOM),
    NAMED(FILED_REPORT), NAMED(FIND),
};

static void refusal_names(void)
{
    for (unsigned i = 0; i < REFUSALS; i++) {
        if (refusals[i].number == i + 1)
            continue;
        printf("header: CALDUVREN_REFUSED_%s is %" PRIu64 " and not %u\n", refusals[i].name, refusals[i].number, i + 1);
        differences++;
    }
}

static void lay_out(uint8_t *table, const uint8_t wires[][9], size_t count)
{
    static const size_t places[9] = {0, 1, 8, 16, 17, 18, 19, 20, 22};
    for (size_t wire = 0; wire < count; wire++)
        for (size_t i = 0; i < 9; i++)
            table[CALDUVREN_RECORD_BYTES * wire + places[i]] = wires[wire][i];
}

#define READ(text, text_length, table_length) \
    calduvren_read_text((const uint8_t *)(text), text_length, lent.table, table_length, &lent.order, &lent.shares, \
                        &lent.masks, &lent.wires, &lent.offset)

#define TWO_LINES "ORDER = 1\nMASKS = []\n"
#define REFUSES_TEXT(text, at, refusal) \
    do { \
        wanted.offset = at; \
        REFUSES(READ(text, strlen(text), CALDUVREN_MAX_TABLE_BYTES), refusal); \
    } while (0)

static void want_table(size_t masks, const uint8_t *table, size_t table_length)
{
    wanted.order = 1;
    wanted.shares = 2;
    wanted.masks = masks;
    wanted.wires = table_length / CALDUVREN_RECORD_BYTES;
    memcpy(wanted.table, table, table_length);
}

static void read_text(void)
{
    static char spaces[CALDUVREN_MAX_TEXT_BYTES + 1];
    memset(spaces, ' ', sizeof spaces);
    want_table(1, table_a, sizeof table_a);
    ANSWERS(READ(text_a, strlen(text_a), CALDUVREN_MAX_TABLE_BYTES));
    want_table(1, table_b, sizeof table_b);
    ANSWERS(READ(text_b, strlen(text_b), sizeof table_b));
    want_table(0, table_c, sizeof table_c);
    ANSWERS(READ(text_c, strlen(text_c), sizeof table_c));
    wanted.offset = CALDUVREN_MAX_TEXT_BYTES;
    REFUSES(READ(spaces, CALDUVREN_MAX_TEXT_BYTES + 1, CALDUVREN_MAX_TABLE_BYTES), TEXT_TOO_LONG);
    wanted.offset = 0;
    REFUSES(READ(spaces, CALDUVREN_MAX_TEXT_BYTES, CALDUVREN_MAX_TABLE_BYTES), FIRST_LINE);
    REFUSES_TEXT("", 0, FIRST_LINE);
    REFUSES_TEXT("ORDER = 1\n", 10, SECOND_LINE);
    REFUSES_TEXT(TWO_LINES "a2\n", 21, SYMBOL);
    REFUSES_TEXT(TWO_LINES "r64\n", 21, SYMBOL);
    REFUSES_TEXT(TWO_LINES "r0\n", 21, UNDECLARED_MASK);
    REFUSES_TEXT(TWO_LINES ")\n", 21, PARENTHESIS);
    REFUSES_TEXT(TWO_LINES "()\n", 22, PARENTHESIS);
    REFUSES_TEXT(TWO_LINES "(a0\n", 24, PARENTHESIS);
    REFUSES_TEXT(TWO_LINES "a0 | a1\n", 24, BAR);
    REFUSES_TEXT(TWO_LINES "(((((((((((((((((a0\n", 37, DEPTH);
    REFUSES_TEXT(TWO_LINES "a0\na1\na1\n", 27, LINES);
    REFUSES_TEXT(TWO_LINES "a0\n", 24, LINES);
    wanted.offset = strlen(text_a);
    REFUSES(READ(text_a, strlen(text_a), sizeof table_a - 1), WIRES);
}

#define CHECK_SIZE(text, text_length, sets_length) \
    calduvren_check_size((const uint8_t *)(text), text_length, lent.sets_by_size, sets_length, &lent.order, \
                         &lent.shares, &lent.masks, &lent.wires, &lent.bytes, &lent.offset)

#define REFUSES_SIZE(text, at, refusal) \
    do { \
        wanted.offset = at; \
        REFUSES(CHECK_SIZE(text, strlen(text), CALDUVREN_MAX_ORDER), refusal); \
    } while (0)

static void want_size(size_t order, size_t masks, size_t wires, const uint64_t *sets)
{
    wanted.order = order;
    wanted.shares = order + 1;
    wanted.masks = masks;
    wanted.wires = wires;
    wanted.bytes = CALDUVREN_RECORD_BYTES * wires;
    memcpy(wanted.sets_by_size, sets, order * sizeof *sets);
}

/* A text of so many wires at order 7. The first line has one for its symbol and one for each addition. */
static const char *text_of(size_t wires)
{
    static char text[CALDUVREN_MAX_TEXT_BYTES];
    strcpy(text, "ORDER = 7\nMASKS = []\na0");
    for (size_t wire = 8; wire < wires; wire++)
        strcat(text, " a0");
    return strcat(text, "\na0\na0\na0\na0\na0\na0\na0\n");
}

static void check_size(void)
{
    static const uint64_t of_9[] = {9}, of_24[] = {24, 276};
    static const uint64_t of_204[] = {204, 20706, 1394204, 70058751, 2802350040, 92944609660, 2629004673240};
    static const uint64_t of_512[] = {512,          130816,         22238720,        2829877120,
                                      287515515392, 24295061050624, 1756185841659392};
    want_size(1, 1, 9, of_9);
    ANSWERS(CHECK_SIZE(text_a, strlen(text_a), 1));
    want_size(2, 3, 24, of_24);
    ANSWERS(CHECK_SIZE(isw_2, strlen(isw_2), CALDUVREN_MAX_ORDER));
    want_size(CALDUVREN_MAX_ORDER, 28, 204, of_204);
    ANSWERS(CHECK_SIZE(isw_7, strlen(isw_7), CALDUVREN_MAX_ORDER));
    want_size(CALDUVREN_MAX_ORDER, 0, CALDUVREN_MAX_WIRES, of_512);
    ANSWERS(CHECK_SIZE(text_of(512), strlen(text_of(512)), CALDUVREN_MAX_ORDER + 1));
    REFUSES_SIZE(text_of(513), strlen(text_of(513)), WIRES);
    wanted.offset = strlen(text_of(513)); /* before 16 */
    REFUSES(CHECK_SIZE(text_of(513), strlen(text_of(513)), 0), WIRES);
    REFUSES(CHECK_SIZE(text_a, strlen(text_a), 0), BUFFER);
    REFUSES(CHECK_SIZE(isw_7, strlen(isw_7), CALDUVREN_MAX_ORDER - 1), BUFFER);
}

static void check_size_of_refused(void)
{
    static char spaces[CALDUVREN_MAX_TEXT_BYTES + 1];
    memset(spaces, ' ', sizeof spaces);
    wanted.offset = CALDUVREN_MAX_TEXT_BYTES;
    REFUSES(CHECK_SIZE(spaces, CALDUVREN_MAX_TEXT_BYTES + 1, CALDUVREN_MAX_ORDER), TEXT_TOO_LONG);
    REFUSES_SIZE("", 0, FIRST_LINE);
    REFUSES_SIZE("ORDER = 1\n", 10, SECOND_LINE);
    REFUSES_SIZE(TWO_LINES "a2\n", 21, SYMBOL);
    REFUSES_SIZE(TWO_LINES "r0\n", 21, UNDECLARED_MASK);
    REFUSES_SIZE(TWO_LINES "()\n", 22, PARENTHESIS);
    REFUSES_SIZE(TWO_LINES "a0 | a1\n", 24, BAR);
    REFUSES_SIZE(TWO_LINES "(((((((((((((((((a0\n", 37, DEPTH);
    REFUSES_SIZE(TWO_LINES "a0\na1\na1\n", 27, LINES);
    REFUSES_SIZE(TWO_LINES "a0\n", 24, LINES);
    wanted.offset = 24; /* before 16 */
    REFUSES(CHECK_SIZE(TWO_LINES "a0\n", 24, 0), LINES);
}

#define PART(text_length, table_length, wire) \
    calduvren_text_part((const uint8_t *)text_a, text_length, table_a, table_length, wire, &lent.offset, &lent.length)

static void text_part(void)
{
    wanted.offset = 35; /* "(r0 s01) s10" */
    wanted.length = 12;
    ANSWERS(PART(strlen(text_a), sizeof table_a, 7));
    REFUSES(PART(strlen(text_a), sizeof table_a - 1, 7), TABLE_LENGTH);
    REFUSES(PART(strlen(text_a), sizeof table_a, 9), WIRE_NUMBERS);
    REFUSES(PART(46, sizeof table_a, 7), TEXT_PART);
}

static void function_check(void)
{
    wanted.yes = 1;
    ANSWERS(calduvren_function_check(table_a, sizeof table_a, 2, 1, CALDUVREN_PRODUCT, &lent.yes));
    wanted.yes = 1;
    ANSWERS(calduvren_function_check(table_c, sizeof table_c, 2, 0, CALDUVREN_SUM, &lent.yes));
    wanted.yes = 0;
    ANSWERS(calduvren_function_check(table_c, sizeof table_c, 2, 0, CALDUVREN_COPY, &lent.yes));
    REFUSES(calduvren_function_check(table_a, sizeof table_a, CALDUVREN_MAX_SHARES + 1, 1, 1, &lent.yes),
            SHARES_OR_MASKS);
    REFUSES(calduvren_function_check(table_a, sizeof table_a, 2, CALDUVREN_MAX_MASKS + 1, 1, &lent.yes),
            SHARES_OR_MASKS);
    REFUSES(calduvren_function_check(table_a, sizeof table_a - 1, 2, 1, 1, &lent.yes), TABLE_LENGTH);
    REFUSES(calduvren_function_check(table_a, sizeof table_a, 2, 0, 1, &lent.yes), RECORD);
    REFUSES(calduvren_function_check(table_a, sizeof table_a, 2, 1, 4, &lent.yes), FUNCTION);
}

#define JUDGE(table, table_length, shares, masks, notion, order, set_length) \
    calduvren_verdict(table, table_length, shares, masks, notion, order, lent.set, set_length, &lent.holds, &lent.size)

static void want_broken(uint16_t wire)
{
    wanted.holds = 0;
    wanted.size = 1;
    wanted.set[0] = wire;
}

static void verdict(void)
{
    wanted.holds = 1;
    ANSWERS(JUDGE(table_a, sizeof table_a, 2, 1, CALDUVREN_NI, 1, 1));
    wanted.holds = 1;
    ANSWERS(JUDGE(table_a, sizeof table_a, 2, 1, CALDUVREN_SNI, 1, 1));
    want_broken(6);
    ANSWERS(JUDGE(table_b, sizeof table_b, 2, 1, CALDUVREN_NI, 1, 1));
    want_broken(6);
    ANSWERS(JUDGE(table_b, sizeof table_b, CALDUVREN_MAX_SHARES, CALDUVREN_MAX_MASKS, CALDUVREN_SNI,
                  CALDUVREN_MAX_ORDER, CALDUVREN_MAX_ORDER));
    wanted.holds = 1;
    ANSWERS(JUDGE(table_c, sizeof table_c, 2, 0, CALDUVREN_NI, 1, 1));
    want_broken(2);
    ANSWERS(JUDGE(table_c, sizeof table_c, 2, 0, CALDUVREN_SNI, 1, 1));
    REFUSES(JUDGE(table_b, sizeof table_b, 1, 1, CALDUVREN_NI, 1, 1), SHARES_OR_MASKS);
    REFUSES(JUDGE(table_b, sizeof table_b, 2, CALDUVREN_MAX_MASKS + 1, CALDUVREN_NI, 1, 1), SHARES_OR_MASKS);
    REFUSES(JUDGE(table_b, sizeof table_b - 1, 2, 1, CALDUVREN_NI, 1, 1), TABLE_LENGTH);
    REFUSES(JUDGE(table_b, sizeof table_b, 2, 0, CALDUVREN_NI, 1, 1), RECORD);
    REFUSES(JUDGE(table_b, sizeof table_b, 2, 1, 3, 1, 1), NOTION);
    REFUSES(JUDGE(table_b, sizeof table_b, 2, 1, CALDUVREN_NI, 2, 2), ORDER);
    REFUSES(JUDGE(table_b, sizeof table_b, 2, 1, CALDUVREN_NI, 1, 0), BUFFER);
}

/* The same calls as of calduvren_verdict, with the same answers. */
#define DIRECT(table, table_length, shares, masks, notion, order, set_length) \
    calduvren_directed_verdict(table, table_length, shares, masks, notion, order, lent.set, set_length, &lent.holds, \
                               &lent.size)

static void directed_verdict(void)
{
    wanted.holds = 1;
    ANSWERS(DIRECT(table_a, sizeof table_a, 2, 1, CALDUVREN_NI, 1, 1));
    wanted.holds = 1;
    ANSWERS(DIRECT(table_a, sizeof table_a, 2, 1, CALDUVREN_SNI, 1, 1));
    want_broken(6);
    ANSWERS(DIRECT(table_b, sizeof table_b, 2, 1, CALDUVREN_NI, 1, 1));
    want_broken(6);
    ANSWERS(DIRECT(table_b, sizeof table_b, CALDUVREN_MAX_SHARES, CALDUVREN_MAX_MASKS, CALDUVREN_SNI,
                   CALDUVREN_MAX_ORDER, CALDUVREN_MAX_ORDER));
    wanted.holds = 1;
    ANSWERS(DIRECT(table_c, sizeof table_c, 2, 0, CALDUVREN_NI, 1, 1));
    want_broken(2);
    ANSWERS(DIRECT(table_c, sizeof table_c, 2, 0, CALDUVREN_SNI, 1, 1));
    REFUSES(DIRECT(table_b, sizeof table_b, 1, 1, CALDUVREN_NI, 1, 1), SHARES_OR_MASKS);
    REFUSES(DIRECT(table_b, sizeof table_b, 2, CALDUVREN_MAX_MASKS + 1, CALDUVREN_NI, 1, 1), SHARES_OR_MASKS);
    REFUSES(DIRECT(table_b, sizeof table_b - 1, 2, 1, CALDUVREN_NI, 1, 1), TABLE_LENGTH);
    REFUSES(DIRECT(table_b, sizeof table_b, 2, 0, CALDUVREN_NI, 1, 1), RECORD);
    REFUSES(DIRECT(table_b, sizeof table_b, 2, 1, 3, 1, 1), NOTION);
    REFUSES(DIRECT(table_b, sizeof table_b, 2, 1, CALDUVREN_NI, 2, 2), ORDER);
    REFUSES(DIRECT(table_b, sizeof table_b, 2, 1, CALDUVREN_NI, 1, 0), BUFFER);
}

#define RANGE(table_length, shares, masks, notion, size_asked, from, to, set_length) \
    calduvren_range_check(table_b, table_length, shares, masks, notion, size_asked, from, to, lent.set, set_length, \
                          &lent.clean, &lent.size, &lent.rank)

/* On text B, where of the sets of one wire those at ranks 6 and 7 break NI. */
static void range_check(void)
{
    wanted.clean = 0;
    wanted.size = 1;
    wanted.rank = wanted.set[0] = 7;
    ANSWERS(RANGE(sizeof table_b, 2, 1, CALDUVREN_NI, 1, 7, 9, 1));
    wanted.clean = 1;
    ANSWERS(RANGE(sizeof table_b, 2, 1, CALDUVREN_NI, 1, 0, 6, 1));
    wanted.clean = 1; /* the empty set breaks nothing */
    ANSWERS(RANGE(sizeof table_b, 2, 1, CALDUVREN_NI, 0, 0, 1, 0));
    REFUSES(RANGE(sizeof table_b, 9, 1, CALDUVREN_NI, 1, 7, 9, 1), SHARES_OR_MASKS);
    REFUSES(RANGE(sizeof table_b, 2, 65, CALDUVREN_NI, 1, 7, 9, 1), SHARES_OR_MASKS);
    REFUSES(RANGE(sizeof table_b - 1, 2, 1, CALDUVREN_NI, 1, 7, 9, 1), TABLE_LENGTH);
    REFUSES(RANGE(sizeof table_b, 2, 0, CALDUVREN_NI, 1, 7, 9, 1), RECORD);
    REFUSES(RANGE(sizeof table_b, 2, 1, 0, 1, 7, 9, 1), NOTION);
    REFUSES(RANGE(sizeof table_b, 2, 1, CALDUVREN_NI, CALDUVREN_MAX_SIZE + 1, 0, 0, CALDUVREN_MAX_SIZE + 1), SIZE);
    REFUSES(RANGE(sizeof table_b, 2, 1, CALDUVREN_NI, 1, 7, 9, 0), BUFFER);
    REFUSES(RANGE(sizeof table_b, 2, 1, CALDUVREN_NI, 1, 7, 6, 1), RANKS);
    REFUSES(RANGE(sizeof table_b, 2, 1, CALDUVREN_NI, 1, 7, 10, 1), RANKS);
}

/* A report laid out by hand; `rank` is all ones where the ranks are clean. */
#define CLEAN UINT64_MAX
static void lay_out_report(uint8_t *report, uint8_t notion, uint8_t size, uint64_t from, uint64_t to, uint64_t rank)
{
    const uint64_t numbers[3] = {from, to, rank};
    memset(report, 0, CALDUVREN_FILED_REPORT_BYTES);
    report[0] = notion;
    report[1] = size;
    for (size_t i = 0; i < 24; i++)
        report[8 + i] = (uint8_t)(numbers[i / 8] >> 8 * (i % 8));
}

#define FILE_REPORT(notion, size_asked, from, to, clean, rank, report_length) \
    calduvren_filed_report(notion, size_asked, from, to, clean, rank, lent.report, report_length)

static void filed_report(void)
{
    const uint64_t most = 1756185841659392; /* sets of seven out of 512 wires */
    lay_out_report(wanted.report, CALDUVREN_SNI, 2, 3, 5, 4);
    ANSWERS(FILE_REPORT(CALDUVREN_SNI, 2, 3, 5, 0, 4, CALDUVREN_FILED_REPORT_BYTES));
    lay_out_report(wanted.report, CALDUVREN_NI, CALDUVREN_MAX_SIZE, 0x0102030405, most, CLEAN);
    ANSWERS(FILE_REPORT(CALDUVREN_NI, CALDUVREN_MAX_SIZE, 0x0102030405, most, 1, 7, CALDUVREN_FILED_REPORT_BYTES));
    lay_out_report(wanted.report, CALDUVREN_NI, 1, 512, 512, CLEAN); /* no ranks */
    ANSWERS(FILE_REPORT(CALDUVREN_NI, 1, 512, 512, 1, 0, CALDUVREN_FILED_REPORT_BYTES));
    REFUSES(FILE_REPORT(CALDUVREN_SNI, 2, 3, 5, 0, 4, CALDUVREN_FILED_REPORT_BYTES - 1), FILED_REPORT);
    REFUSES(FILE_REPORT(CALDUVREN_SNI, 2, 3, 5, 0, 4, CALDUVREN_FILED_REPORT_BYTES + 1), FILED_REPORT);
    REFUSES(FILE_REPORT(3, 2, 3, 5, 0, 4, CALDUVREN_FILED_REPORT_BYTES), FILED_REPORT);
    REFUSES(FILE_REPORT(CALDUVREN_SNI, 0, 0, 1, 1, 4, CALDUVREN_FILED_REPORT_BYTES), FILED_REPORT);
    REFUSES(FILE_REPORT(CALDUVREN_SNI, 2, 5, 3, 1, 4, CALDUVREN_FILED_REPORT_BYTES), FILED_REPORT);
    REFUSES(FILE_REPORT(CALDUVREN_SNI, 7, 3, most + 1, 1, 4, CALDUVREN_FILED_REPORT_BYTES), FILED_REPORT);
    REFUSES(FILE_REPORT(CALDUVREN_SNI, 2, 3, 5, 2, 4, CALDUVREN_FILED_REPORT_BYTES), FILED_REPORT);
    REFUSES(FILE_REPORT(CALDUVREN_SNI, 2, 3, 5, 0, 2, CALDUVREN_FILED_REPORT_BYTES), FILED_REPORT);
    REFUSES(FILE_REPORT(CALDUVREN_SNI, 2, 3, 5, 0, 5, CALDUVREN_FILED_REPORT_BYTES), FILED_REPORT);
}

#define POOL(table_length, shares, masks, notion, order_asked, reports, reports_length) \
    calduvren_pool(table_b, table_length, shares, masks, notion, order_asked, reports, reports_length, &lent.answer, \
                   &lent.size, &lent.rank)

static void want_place(uint64_t answer, size_t size, uint64_t rank)
{
    wanted.answer = answer;
    wanted.size = size;
    wanted.rank = rank;
}

/* On text B, of which nine ranks are to be covered at order 1, and those at 6 and 7 break. */
static void pool(void)
{
    uint8_t reports[3][CALDUVREN_FILED_REPORT_BYTES];
    const uint8_t *list = reports[0];
    lay_out_report(reports[0], CALDUVREN_NI, 1, 5, 9, CLEAN); /* not true, but believed */
    lay_out_report(reports[1], CALDUVREN_NI, 1, 0, 5, CLEAN);
    lay_out_report(reports[2], CALDUVREN_NI, 1, 4, 9, 7);
    wanted.answer = CALDUVREN_POOL_HOLDS;
    ANSWERS(POOL(sizeof table_b, 2, 1, CALDUVREN_NI, 1, list, 64));
    want_place(CALDUVREN_POOL_BROKEN, 1, 7);
    ANSWERS(POOL(sizeof table_b, 2, 1, CALDUVREN_NI, 1, list, 96));
    want_place(CALDUVREN_POOL_UNCOVERED, 1, 0);
    ANSWERS(POOL(sizeof table_b, 2, 1, CALDUVREN_NI, 1, list, 32));
    want_place(CALDUVREN_POOL_UNCOVERED, 2, 0); /* at order 2 pairs are to be covered too */
    ANSWERS(POOL(sizeof table_b, 3, 1, CALDUVREN_NI, 2, list, 64));
    REFUSES(POOL(sizeof table_b, 9, 1, CALDUVREN_NI, 1, list, 96), SHARES_OR_MASKS);
    REFUSES(POOL(sizeof table_b, 2, 65, CALDUVREN_NI, 1, list, 96), SHARES_OR_MASKS);
    REFUSES(POOL(sizeof table_b - 1, 2, 1, CALDUVREN_NI, 1, list, 96), TABLE_LENGTH);
    REFUSES(POOL(sizeof table_b, 2, 0, CALDUVREN_NI, 1, list, 96), RECORD);
    REFUSES(POOL(sizeof table_b, 2, 1, 3, 1, list, 96), NOTION);
    REFUSES(POOL(sizeof table_b, 2, 1, CALDUVREN_NI, 2, list, 96), ORDER);
    REFUSES(POOL(sizeof table_b, 2, 1, CALDUVREN_NI, 1, list, 95), FILED_REPORT);
    REFUSES(POOL(sizeof table_b, 2, 1, CALDUVREN_SNI, 1, list, 96), FILED_REPORT);
    lay_out_report(reports[2], CALDUVREN_NI, 1, 4, 9, 5);
    REFUSES(POOL(sizeof table_b, 2, 1, CALDUVREN_NI, 1, list, 96), FIND);
    reports[1][2] = 1; /* as of a check under way */
    REFUSES(POOL(sizeof table_b, 2, 1, CALDUVREN_NI, 1, list, 96), FILED_REPORT);
}

#define DEPENDS(table, table_length, shares, masks, notion, set, set_length) \
    calduvren_set_dependence(table, table_length, shares, masks, notion, set, set_length, \
                             &lent.of_a, &lent.of_b, &lent.allowed, &lent.masked)

static void want_dependence(size_t of_a, size_t of_b, size_t allowed, uint64_t masked)
{
    wanted.of_a = of_a;
    wanted.of_b = of_b;
    wanted.allowed = allowed;
    wanted.masked = masked;
}

static void set_dependence(void)
{
    static const uint16_t leak[] = {6}, output[] = {2}, b_alone[] = {0, 4}, falling[] = {4, 0}, beyond[] = {0, 9};
    static const uint16_t outputs[] = {2, 8};
    static const uint16_t eight[] = {0, 1, 2, 3, 4, 5, 6, 7};
    want_dependence(2, 2, 1, 0); /* the scope's text B: NI broken 6 by both, and SNI too */
    ANSWERS(DEPENDS(table_b, sizeof table_b, 2, 1, CALDUVREN_NI, leak, 1));
    want_dependence(2, 2, 1, 0);
    ANSWERS(DEPENDS(table_b, sizeof table_b, 2, 1, CALDUVREN_SNI, leak, 1));
    want_dependence(1, 1, 1, 0); /* text C: NI holds, SNI broken 2 by both */
    ANSWERS(DEPENDS(table_c, sizeof table_c, 2, 0, CALDUVREN_NI, output, 1));
    want_dependence(1, 1, 0, 0);
    ANSWERS(DEPENDS(table_c, sizeof table_c, 2, 0, CALDUVREN_SNI, output, 1));
    want_dependence(1, 1, 0, 1); /* s00 r0 */
    ANSWERS(DEPENDS(table_b, sizeof table_b, 2, 1, CALDUVREN_SNI, output, 1));
    want_dependence(1, 2, 2, 0); /* s00 and s01 */
    ANSWERS(DEPENDS(table_a, sizeof table_a, 2, 1, CALDUVREN_SNI, b_alone, 2));
    want_dependence(2, 2, 2, 0); /* both outputs: their mask cancels */
    ANSWERS(DEPENDS(table_a, sizeof table_a, 2, 1, CALDUVREN_NI, outputs, 2));
    want_dependence(1, 1, 6, 0); /* of seven wires, one of them outer: all but s11 cancels */
    ANSWERS(DEPENDS(table_b, sizeof table_b, 2, 1, CALDUVREN_SNI, eight, CALDUVREN_MAX_SIZE));
    want_dependence(0, 0, 0, 0); /* the empty set breaks nothing */
    ANSWERS(DEPENDS(table_b, sizeof table_b, 2, 1, CALDUVREN_NI, leak, 0));
    REFUSES(DEPENDS(table_b, sizeof table_b, 1, 1, CALDUVREN_NI, leak, 1), SHARES_OR_MASKS);
    REFUSES(DEPENDS(table_b, sizeof table_b, 2, 65, CALDUVREN_NI, leak, 1), SHARES_OR_MASKS);
    REFUSES(DEPENDS(table_b, sizeof table_b - 1, 2, 1, CALDUVREN_NI, leak, 1), TABLE_LENGTH);
    REFUSES(DEPENDS(table_b, sizeof table_b, 2, 0, CALDUVREN_NI, leak, 1), RECORD);
    REFUSES(DEPENDS(table_b, sizeof table_b, 2, 1, 3, leak, 1), NOTION);
    REFUSES(DEPENDS(table_b, sizeof table_b, 2, 1, CALDUVREN_NI, eight, CALDUVREN_MAX_SIZE + 1), SIZE);
    REFUSES(DEPENDS(table_b, sizeof table_b, 2, 1, CALDUVREN_NI, falling, 2), WIRE_NUMBERS);
    REFUSES(DEPENDS(table_b, sizeof table_b, 2, 1, CALDUVREN_NI, beyond, 2), WIRE_NUMBERS);
}

static void numbering(void)
{
    static const uint16_t pair[] = {1, 2};
    static const uint16_t eight[] = {0, 1, 2, 3, 4, 5, 6, 7};
    static const uint16_t seven[] = {0, 4, 5, 6, 7, 8, 511}; /* at a rank of 51 bits */
    wanted.sets = 2829877120;
    ANSWERS(calduvren_set_count(CALDUVREN_MAX_WIRES, 4, &lent.sets));
    wanted.sets = 287515515392; /* more than 32 bits */
    ANSWERS(calduvren_set_count(CALDUVREN_MAX_WIRES, 5, &lent.sets));
    wanted.sets = 276;
    ANSWERS(calduvren_set_count(24, 2, &lent.sets));
    REFUSES(calduvren_set_count(CALDUVREN_MAX_WIRES + 1, 4, &lent.sets), TABLE_LENGTH);
    REFUSES(calduvren_set_count(24, CALDUVREN_MAX_SIZE + 1, &lent.sets), SIZE);
    memcpy(wanted.set, pair, sizeof pair);
    ANSWERS(calduvren_set_from_rank(24, 2, 1, lent.set, 2));
    REFUSES(calduvren_set_from_rank(CALDUVREN_MAX_WIRES + 1, 2, 1, lent.set, 2), TABLE_LENGTH);
    REFUSES(calduvren_set_from_rank(24, CALDUVREN_MAX_SIZE + 1, 1, lent.set, CALDUVREN_MAX_SIZE + 1), SIZE);
    REFUSES(calduvren_set_from_rank(24, 2, 1, lent.set, 1), BUFFER);
    REFUSES(calduvren_set_from_rank(24, 2, 276, lent.set, 2), RANKS);
    memcpy(wanted.set, seven, sizeof seven);
    ANSWERS(calduvren_set_from_rank(CALDUVREN_MAX_WIRES, 7, 1756185841659339, lent.set, 7));
    wanted.rank = 1756185841659339;
    ANSWERS(calduvren_rank_from_set(CALDUVREN_MAX_WIRES, seven, 7, &lent.rank));
    wanted.rank = 1;
    ANSWERS(calduvren_rank_from_set(24, pair, 2, &lent.rank));
    REFUSES(calduvren_rank_from_set(CALDUVREN_MAX_WIRES + 1, pair, 2, &lent.rank), TABLE_LENGTH);
    REFUSES(calduvren_rank_from_set(24, eight, CALDUVREN_MAX_SIZE + 1, &lent.rank), SIZE);
    REFUSES(calduvren_rank_from_set(2, pair, 2, &lent.rank), WIRE_NUMBERS);
}

static void job(void)
{
    wanted.from = 118;
    wanted.to = 157;
    ANSWERS(calduvren_job(24, 2, 3, 7, &lent.from, &lent.to));
    wanted.from = 353734640;
    wanted.to = 530601960;
    ANSWERS(calduvren_job(CALDUVREN_MAX_WIRES, 4, 2, 16, &lent.from, &lent.to));
    wanted.from = 1756159044390079; /* the last of as many jobs as there may be, over 1756185841659392 sets */
    wanted.to = 1756185841659392;
    ANSWERS(calduvren_job(CALDUVREN_MAX_WIRES, CALDUVREN_MAX_SIZE, CALDUVREN_MAX_JOBS - 1, CALDUVREN_MAX_JOBS,
                          &lent.from, &lent.to));
    wanted.from = wanted.to = 0; /* of 276 pairs the first of so many jobs has none */
    ANSWERS(calduvren_job(24, 2, 0, CALDUVREN_MAX_JOBS, &lent.from, &lent.to));
    REFUSES(calduvren_job(CALDUVREN_MAX_WIRES + 1, 2, 3, 7, &lent.from, &lent.to), TABLE_LENGTH);
    REFUSES(calduvren_job(24, CALDUVREN_MAX_SIZE + 1, 3, 7, &lent.from, &lent.to), SIZE);
    REFUSES(calduvren_job(24, 2, 7, 7, &lent.from, &lent.to), JOBS);
    REFUSES(calduvren_job(24, 2, 3, CALDUVREN_MAX_JOBS + 1, &lent.from, &lent.to), JOBS);
}

/* Lengths of 0, each with the address of some object, as the header has it. */
static void no_elements(void)
{
    uint8_t none = 0;
    uint16_t no_wire = 0;
    wanted.offset = 0;
    REFUSES(READ(&none, 0, 0), FIRST_LINE);
    wanted.offset = 0;
    REFUSES(CHECK_SIZE(&none, 0, 0), FIRST_LINE);
    wanted.holds = 1; /* a table of no wires */
    ANSWERS(JUDGE(&none, 0, 2, 0, CALDUVREN_SNI, 1, 1));
    wanted.holds = 1;
    ANSWERS(DIRECT(&none, 0, 2, 0, CALDUVREN_SNI, 1, 1));
    REFUSES(calduvren_filed_report(CALDUVREN_NI, 1, 0, 1, 1, 0, &none, 0), FILED_REPORT);
    wanted.answer = CALDUVREN_POOL_HOLDS;
    ANSWERS(calduvren_pool(&none, 0, 2, 0, CALDUVREN_SNI, 1, &none, 0, &lent.answer, &lent.size, &lent.rank));
    want_dependence(0, 0, 0, 0);
    ANSWERS(DEPENDS(&none, 0, 2, 0, CALDUVREN_SNI, &no_wire, 0));
    ANSWERS(calduvren_set_from_rank(24, 0, 0, &no_wire, 0));
    wanted.rank = 0;
    ANSWERS(calduvren_rank_from_set(24, &no_wire, 0, &lent.rank));
    REFUSES(calduvren_isw_text(1, &none, 0, &lent.length), ISW_ROOM);
}

#define REPORT(text, buffer_length) \
    calduvren_report_text((const uint8_t *)(text), strlen(text), lent.buffer, buffer_length, &lent.length)

static void report_text(void)
{
    static const char report[] = "order 1 shares 2 masks 1 wires 9\nfunction product\nNI holds\nSNI holds\n";
    wanted.length = strlen(report);
    memcpy(wanted.buffer, report, strlen(report));
    ANSWERS(REPORT(text_a, CALDUVREN_MAX_REPORT_BYTES));
    wanted.length = 15;
    memcpy(wanted.buffer, "refused 2 at 0\n", 15);
    ANSWERS(REPORT("", 15));
    REFUSES(REPORT(text_a, strlen(report) - 1), BUFFER);
}

#define WRITE(order_asked, text_length) calduvren_isw_text(order_asked, lent.text, text_length, &lent.length)

static void want_text(const char *text)
{
    wanted.length = strlen(text);
    memcpy(wanted.text, text, strlen(text));
}

static void isw_text(void)
{
    want_text(text_a);
    ANSWERS(WRITE(1, CALDUVREN_MAX_TEXT_BYTES));
    want_text(isw_2);
    ANSWERS(WRITE(2, strlen(isw_2)));
    want_text(isw_7);
    ANSWERS(WRITE(CALDUVREN_MAX_ISW_ORDER, CALDUVREN_MAX_TEXT_BYTES));
    REFUSES(WRITE(0, CALDUVREN_MAX_TEXT_BYTES), ISW_ORDER);
    REFUSES(WRITE(CALDUVREN_MAX_ISW_ORDER + 1, CALDUVREN_MAX_TEXT_BYTES), ISW_ORDER);
    REFUSES(WRITE(2, strlen(isw_2) - 1), ISW_ROOM);
    REFUSES(WRITE(CALDUVREN_MAX_ISW_ORDER + 1, 0), ISW_ORDER);
}

int main(void)
{
    lay_out(table_a, wires_a, 9);
    lay_out(table_b, wires_b, 9);
    lay_out(table_c, wires_c, 6);
    memset(&lent, UNTOUCHED, sizeof lent);
    memset(&wanted, UNTOUCHED, sizeof wanted);
    refusal_names();
    read_text();
    check_size();
    check_size_of_refused();
    text_part();
    function_check();
    verdict();
    directed_verdict();
    range_check();
    filed_report();
    pool();
    set_dependence();
    numbering();
    job();
    no_elements();
    report_text();
    isw_text();
    if (differences == 0)
        printf("header: %u names of refusals and %u calls agree\n", REFUSALS, calls);
    else
        printf("header: of %u names of refusals and %u calls %u differ\n", REFUSALS, calls, differences);
    return differences == 0 ? 0 : 1;
}
