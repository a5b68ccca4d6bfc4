/*
 * One job of a search that is divided over machines: the job's share of the sets of every size from 1 to the text's
 * order, for NI and for SNI. A line for each notion and size is printed as soon as it is known. The order holds where
 * every job has printed "clean" for every size; a notion that is broken is done with.
 *
 * build: gcc -O2 -I include clients/c/part.c -L crates/calduvren/out -lcalduvren -o target/part
 *        (in the repository's root, with a folder `target` in it; `rt lib --cpu x86-64`, in the folder crates/calduvren,
 *        writes the library)
 * usage: target/part FILE JOB JOBS        (jobs are numbered from 0)
 * exit status: 0 all lines were printed; 1 the text is refused; 2 no answer, the reason is on standard error
 */
#include <errno.h>
#include <inttypes.h>
#include <stdio.h>
#include <stdlib.h>

#include "calduvren.h"

struct gadget {
    uint8_t text[CALDUVREN_MAX_TEXT_BYTES + 1], table[CALDUVREN_MAX_TABLE_BYTES];
    size_t text_length, wires, order, shares, masks;
};

static void give_up(const char *why)
{
    fprintf(stderr, "part: %s\n", why);
    exit(2);
}

/* An answer that did not get out was not given. */
static void flush(void)
{
    if (fflush(stdout) != 0 || ferror(stdout))
        give_up("the answer can not be printed");
}

/* Whole digits within 64 bits; anything else must not pass for job 0. */
static uint64_t number_of(const char *argument)
{
    char *end = NULL;
    errno = 0;
    uint64_t number = strtoull(argument, &end, 10);
    if (argument[0] < '0' || argument[0] > '9' || *end != '\0' || errno != 0)
        give_up("JOB and JOBS are numbers");
    return number;
}

static void read_file(struct gadget *g, const char *name)
{
    FILE *file = fopen(name, "rb");
    if (file != NULL)
        g->text_length = fread(g->text, 1, sizeof g->text, file);
    if (file == NULL || ferror(file))
        give_up("the file can not be read");
    fclose(file);
}

/* The job's ranks of one size. Returns whether they are clean. */
static int check_size(const struct gadget *g, const char *name, size_t notion, size_t size, uint64_t job, uint64_t jobs)
{
    uint16_t set[CALDUVREN_MAX_SIZE];
    uint64_t from = 0, to = 0, clean = 0, rank = 0;
    size_t found = 0;
    if (calduvren_job(g->wires, size, job, jobs, &from, &to) != 0)
        give_up("there are 1 to 65536 jobs, numbered from 0");
    if (calduvren_range_check(g->table, CALDUVREN_RECORD_BYTES * g->wires, g->shares, g->masks, notion, size, from, to,
                              set, CALDUVREN_MAX_SIZE, &clean, &found, &rank) != 0)
        give_up("unexpected refusal"); /* the table and the range come from the engine */
    printf("%s size %zu ranks %" PRIu64 "..%" PRIu64 " ", name, size, from, to);
    if (clean)
        printf("clean\n");
    else
        printf("broken at rank %" PRIu64 ", wires", rank);
    for (size_t i = 0; i < found; i++)
        printf(i + 1 < found ? " %u" : " %u\n", (unsigned)set[i]);
    flush();
    return clean != 0;
}

int main(int argument_count, char **arguments)
{
    static struct gadget g;
    if (argument_count != 4)
        give_up("usage: part FILE JOB JOBS");
    uint64_t job = number_of(arguments[2]), jobs = number_of(arguments[3]);
    read_file(&g, arguments[1]);
    size_t offset = 0;
    calduvren_status status = calduvren_read_text(g.text, g.text_length, g.table, sizeof g.table,
                                                  &g.order, &g.shares, &g.masks, &g.wires, &offset);
    if (status != 0) {
        printf("refused %" PRIu64 " at %zu\n", status, offset);
        flush();
        return 1;
    }
    for (size_t size = 1; size <= g.order && check_size(&g, "NI", CALDUVREN_NI, size, job, jobs); size++) {
    }
    for (size_t size = 1; size <= g.order && check_size(&g, "SNI", CALDUVREN_SNI, size, job, jobs); size++) {
    }
    return 0;
}
