/*
 * The NI and SNI verdicts on a description file, at its own order. A broken one names the operand that leaks, or both.
 * Below it stand the wires of the first breaking set, each with the part of the file that computes it, and on how many
 * shares their sum depends.
 *
 * build: gcc -O2 -I include clients/c/verdicts.c -L crates/calduvren/out -lcalduvren -o target/verdicts
 *        (in the repository's root, with a folder `target` in it; `rt lib --cpu x86-64`, in the folder crates/calduvren,
 *        writes the library)
 * usage: target/verdicts FILE
 * exit status: 0 both verdicts were printed; 1 the text is refused; 2 no answer, the reason is on standard error
 */
#include <inttypes.h>
#include <stdio.h>
#include <stdlib.h>

#include "calduvren.h"

/* A text, with room for a byte more than the engine takes, so that too long a file is seen as such; and its table. */
struct gadget {
    uint8_t text[CALDUVREN_MAX_TEXT_BYTES + 1], table[CALDUVREN_MAX_TABLE_BYTES];
    size_t text_length, table_length, order, shares, masks;
};

/* The table comes from the engine, so no later call refuses it. Should one, that must not pass for a verdict. */
static void expect_answer(calduvren_status status)
{
    if (status != CALDUVREN_OK) {
        fprintf(stderr, "verdicts: unexpected refusal %" PRIu64 "\n", status);
        exit(2);
    }
}

static void print_verdict(const struct gadget *g, const char *name, size_t notion)
{
    uint16_t set[CALDUVREN_MAX_ORDER];
    uint64_t holds = 0, masked = 1; /* for a set that a verdict shows masked is 0, and of_a or of_b is above allowed */
    size_t size = 0, of_a = 0, of_b = 0, allowed = 0;
    expect_answer(calduvren_directed_verdict(g->table, g->table_length, g->shares, g->masks, notion, g->order,
                                             set, CALDUVREN_MAX_ORDER, &holds, &size));
    if (holds) {
        printf("%s holds\n", name);
        return;
    }
    expect_answer(calduvren_set_dependence(g->table, g->table_length, g->shares, g->masks, notion, set, size,
                                           &of_a, &of_b, &allowed, &masked));
    printf("%s broken by %s\n", name, of_b <= allowed ? "a" : of_a <= allowed ? "b" : "both");
    for (size_t i = 0; i < size; i++) {
        size_t offset = 0, length = 0;
        expect_answer(calduvren_text_part(g->text, g->text_length, g->table, g->table_length, set[i],
                                          &offset, &length));
        printf("  wire %u: %.*s\n", (unsigned)set[i], (int)length, (const char *)g->text + offset);
    }
    printf("  depends on %zu of a's shares and %zu of b's, %zu of each allowed\n", of_a, of_b, allowed);
}

int main(int argument_count, char **arguments)
{
    static struct gadget g;
    FILE *file = argument_count == 2 ? fopen(arguments[1], "rb") : NULL;
    if (file != NULL)
        g.text_length = fread(g.text, 1, sizeof g.text, file);
    if (file == NULL || ferror(file)) {
        fprintf(stderr, "usage: verdicts FILE, a file that can be read\n");
        return 2;
    }
    fclose(file);
    size_t wires = 0, offset = 0;
    calduvren_status status = calduvren_read_text(g.text, g.text_length, g.table, sizeof g.table,
                                                  &g.order, &g.shares, &g.masks, &wires, &offset);
    g.table_length = CALDUVREN_RECORD_BYTES * wires;
    if (status != CALDUVREN_OK) {
        printf("refused %" PRIu64 " at %zu\n", status, offset);
    } else {
        print_verdict(&g, "NI", CALDUVREN_NI);
        print_verdict(&g, "SNI", CALDUVREN_SNI);
    }
    if (fflush(stdout) != 0 || ferror(stdout)) { /* a verdict that did not get out was not given */
        perror("verdicts");
        return 2;
    }
    return status != CALDUVREN_OK;
}
