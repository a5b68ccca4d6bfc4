/*
 * A search that is divided into jobs, one process for each, and pooled. A job is its share of the sets of every size
 * from 1 to the text's order, for NI and for SNI; its process leaves the reports on them in a file of FOLDER. When the
 * processes have ended, all reports in FOLDER are pooled, and a line for each notion is printed, as one of
 *   NI holds
 *   NI broken at size 1 rank 6, wires 6
 *   NI uncovered at size 2 rank 92: run job 1 again
 * The last says that this rank is the first that no report covers, as where a process was killed. Which process does a
 * job, and how it ended where it did not end well, is told on standard error. Machines may each do some of the jobs:
 * their files are pooled where they are brought together in one folder.
 *
 * What is found is checked again, a clean report is believed: whoever can write to the folder decides what holds. A job
 * files only at its end, so that a kill loses all of its sizes. What a process had written when it was killed while it
 * filed, as job-1-of-3.reports.4711 with the process at the end, stays in the folder and is not read.
 *
 * build: gcc -O2 -I include clients/c/divided.c -L crates/calduvren/out -lcalduvren -o target/divided
 *        (in the repository's root, with a folder `target` in it; `rt lib --cpu x86-64`, in the folder crates/calduvren,
 *        writes the library)
 * usage: target/divided FILE JOBS FOLDER          the jobs 0 to JOBS - 1, but for those whose file is in FOLDER already
 *        target/divided FILE JOBS FOLDER JOB      this job alone, also where its file is there
 *        target/divided FILE JOBS FOLDER pool     no job: what the files in FOLDER come to
 * exit status: 0 each of the two lines says holds or broken; 3 one says uncovered, and the search is not complete;
 *              1 the text is refused; 2 no answer, the reason is on standard error
 */
#define _POSIX_C_SOURCE 200809L /* for processes and folders */
#include <dirent.h>
#include <errno.h>
#include <inttypes.h>
#include <stdio.h>
#include <stdlib.h>
#include <string.h>
#include <sys/stat.h>
#include <sys/wait.h>
#include <unistd.h>

#include "calduvren.h"

#define ENDING ".reports"
#define MOST_PROCESSES 256 /* at a time */

struct gadget {
    uint8_t text[CALDUVREN_MAX_TEXT_BYTES + 1], table[CALDUVREN_MAX_TABLE_BYTES];
    size_t text_length, wires, order, shares, masks;
};

/* The reports of one notion. */
struct list {
    uint8_t *reports;
    size_t length, room;
};

/* The processes at work. */
struct crew {
    pid_t process[MOST_PROCESSES];
    uint64_t job[MOST_PROCESSES];
    size_t most, working;
};

static void give_up(const char *about, const char *why)
{
    fprintf(stderr, "divided: %s: %s\n", about, why);
    exit(2);
}

/* For calls whose table, ranks and reports have passed the engine before. A refusal must not pass for an answer. */
static void expect_answer(calduvren_status status)
{
    if (status != CALDUVREN_OK)
        give_up("the engine", "unexpected refusal");
}

/* An answer that did not get out was not given. */
static void flush(void)
{
    if (fflush(stdout) != 0 || ferror(stdout))
        give_up("standard output", "the answer can not be printed");
}

/* Whole digits up to a limit; anything else must not pass for job 0. */
static uint64_t number_of(const char *argument, uint64_t least, uint64_t most)
{
    char *end = NULL;
    errno = 0;
    uint64_t number = strtoull(argument, &end, 10);
    if (argument[0] < '0' || argument[0] > '9' || *end != '\0' || errno != 0 || number < least || number > most)
        give_up(argument, "there are 1 to 65536 jobs, numbered from 0");
    return number;
}

static void read_file(struct gadget *g, const char *name)
{
    FILE *file = fopen(name, "rb");
    if (file != NULL)
        g->text_length = fread(g->text, 1, sizeof g->text, file);
    if (file == NULL || ferror(file))
        give_up(name, "the file can not be read");
    fclose(file);
}

/* ---- one job, in a process of its own */

static void name_of(char *name, size_t length, uint64_t job, uint64_t jobs)
{
    snprintf(name, length, "job-%" PRIu64 "-of-%" PRIu64 ENDING, job, jobs);
}

/* Checks the job's ranks of one size, and writes the report. */
static void check_size(const struct gadget *g, size_t notion, size_t size, uint64_t job, uint64_t jobs,
                       uint8_t *report)
{
    uint16_t set[CALDUVREN_MAX_SIZE];
    uint64_t from = 0, to = 0, clean = 0, rank = 0;
    size_t found = 0;
    expect_answer(calduvren_job(g->wires, size, job, jobs, &from, &to));
    expect_answer(calduvren_range_check(g->table, CALDUVREN_RECORD_BYTES * g->wires, g->shares, g->masks, notion, size,
                                        from, to, set, CALDUVREN_MAX_SIZE, &clean, &found, &rank));
    expect_answer(calduvren_filed_report(notion, size, from, to, clean, rank, report, CALDUVREN_FILED_REPORT_BYTES));
}

/*
 * Leaves a file of the text and the reports below it: a report does not name its table, and those of another text must
 * not be pooled. It gets its name when it is whole, so that a process that is killed leaves no part of one.
 */
static void leave_file(const struct gadget *g, const char *name, const uint8_t *reports, size_t length)
{
    char unfinished[128];
    snprintf(unfinished, sizeof unfinished, "%s.%ld", name, (long)getpid());
    FILE *file = fopen(unfinished, "wb");
    if (file == NULL)
        give_up(unfinished, strerror(errno));
    int written = fwrite(g->text, 1, g->text_length, file) == g->text_length &&
                  fwrite(reports, 1, length, file) == length;
    if (fclose(file) != 0 || !written || rename(unfinished, name) != 0) {
        remove(unfinished);
        give_up(name, "the reports can not be written");
    }
}

/*
 * All sizes, also above one that is broken: that the pool comes to the verdict's own answer is proved of the reports of
 * all jobs of all sizes.
 */
static void do_job(const struct gadget *g, const char *name, uint64_t job, uint64_t jobs)
{
    uint8_t reports[2 * CALDUVREN_MAX_ORDER * CALDUVREN_FILED_REPORT_BYTES];
    size_t length = 0;
    for (size_t notion = CALDUVREN_NI; notion <= CALDUVREN_SNI; notion++) {
        for (size_t size = 1; size <= g->order; size++) {
            check_size(g, notion, size, job, jobs, reports + length);
            length += CALDUVREN_FILED_REPORT_BYTES;
        }
    }
    leave_file(g, name, reports, length);
}

/* ---- the processes */

/* A process that did not end well leaves its ranks uncovered: the pool will tell. */
static void await_one(struct crew *crew)
{
    int status = 0;
    pid_t ended = 0;
    size_t i = 0;
    do {
        ended = wait(&status);
    } while (ended < 0 && errno == EINTR);
    if (ended < 0 && errno != ECHILD)
        give_up("the processes", strerror(errno));
    if (ended < 0) /* none is left, also where the system was told to keep nothing of them */
        crew->working = 0;
    while (i < crew->working && crew->process[i] != ended)
        i++;
    if (i == crew->working) /* not one of these: a shell may have started one before it became this program */
        return;
    if (WIFSIGNALED(status))
        fprintf(stderr, "divided: job %" PRIu64 " was killed by signal %d\n", crew->job[i], WTERMSIG(status));
    else if (status != 0)
        fprintf(stderr, "divided: job %" PRIu64 " ended with status %d\n", crew->job[i], WEXITSTATUS(status));
    crew->working--;
    crew->process[i] = crew->process[crew->working];
    crew->job[i] = crew->job[crew->working];
}

static void start_job(struct crew *crew, const struct gadget *g, const char *name, uint64_t job, uint64_t jobs)
{
    while (crew->working >= crew->most)
        await_one(crew);
    pid_t process = fork();
    if (process == 0) {
        do_job(g, name, job, jobs);
        exit(0);
    }
    if (process < 0) {
        fprintf(stderr, "divided: job %" PRIu64 " gets no process: %s\n", job, strerror(errno));
        return;
    }
    fprintf(stderr, "divided: job %" PRIu64 " is process %ld\n", job, (long)process);
    crew->process[crew->working] = process;
    crew->job[crew->working++] = job;
}

/* The jobs from `job` up to, without, `end`; where `again` is 0, those without a file. As many at a time as there are
 * processors. */
static void run_jobs(const struct gadget *g, uint64_t job, uint64_t end, uint64_t jobs, int again)
{
    static struct crew crew;
    long processors = sysconf(_SC_NPROCESSORS_ONLN);
    crew.most = processors < 1 ? 1 : processors > MOST_PROCESSES ? MOST_PROCESSES : (size_t)processors;
    for (; job < end; job++) {
        char name[64];
        name_of(name, sizeof name, job, jobs);
        if (again || access(name, F_OK) != 0)
            start_job(&crew, g, name, job, jobs);
    }
    while (crew.working > 0)
        await_one(&crew);
}

/* ---- the pool */

/* The list's reports from byte `start` on. */
static calduvren_status pool(const struct gadget *g, size_t notion, const struct list *list, size_t start,
                             uint64_t *answer, size_t *size, uint64_t *rank)
{
    const uint8_t none = 0; /* where there are no reports: the engine takes no null pointer */
    return calduvren_pool(g->table, CALDUVREN_RECORD_BYTES * g->wires, g->shares, g->masks, notion, g->order,
                          list->length == 0 ? &none : list->reports + start, list->length - start, answer, size, rank);
}

static void add_report(struct list *list, const uint8_t *report)
{
    if (list->length == list->room) {
        list->room = 2 * list->room + CALDUVREN_FILED_REPORT_BYTES;
        list->reports = (uint8_t *)realloc(list->reports, list->room);
        if (list->reports == NULL)
            give_up("the reports", "no memory for so many");
    }
    memcpy(list->reports + list->length, report, CALDUVREN_FILED_REPORT_BYTES);
    list->length += CALDUVREN_FILED_REPORT_BYTES;
}

/*
 * Adds a file's reports to those of NI and of SNI. They are pooled by themselves first, so that the file is named where
 * one of them is refused. So is what follows the text in the file of a longer one: no text that is read has a byte 1
 * or 2.
 */
static void add_file(const struct gadget *g, const char *name, struct list *lists)
{
    uint8_t text[CALDUVREN_MAX_TEXT_BYTES], report[CALDUVREN_FILED_REPORT_BYTES];
    size_t start[2] = {lists[0].length, lists[1].length}, size = 0, length = 0;
    uint64_t answer = 0, rank = 0;
    FILE *file = fopen(name, "rb");
    if (file == NULL)
        give_up(name, strerror(errno));
    length = fread(text, 1, g->text_length, file);
    if (ferror(file) || length < g->text_length || memcmp(text, g->text, length) != 0)
        give_up(name, "does not begin with this text, or can not be read: reports of another need another folder");
    while ((length = fread(report, 1, sizeof report, file)) == sizeof report)
        add_report(&lists[report[0] == CALDUVREN_SNI], report);
    if (ferror(file) || length != 0)
        give_up(name, "ends within a report, or can not be read: remove it, and run its job again");
    fclose(file);
    for (size_t i = 0; i < 2; i++)
        if (pool(g, CALDUVREN_NI + i, &lists[i], start[i], &answer, &size, &rank) != CALDUVREN_OK)
            give_up(name, "has a report that the pool refuses: remove it, and run its job again");
}

/* Adds all files of reports in the folder, whatever their division: ranks may be covered more than once. */
static void gather(const struct gadget *g, struct list *lists)
{
    const size_t ending = strlen(ENDING);
    struct dirent *entry = NULL;
    DIR *folder = opendir(".");
    if (folder == NULL)
        give_up("the folder", strerror(errno));
    lists[0].length = lists[1].length = 0;
    for (errno = 0; (entry = readdir(folder)) != NULL; errno = 0) {
        size_t length = strlen(entry->d_name);
        if (length > ending && strcmp(entry->d_name + length - ending, ENDING) == 0)
            add_file(g, entry->d_name, lists);
    }
    if (errno != 0)
        give_up("the folder", strerror(errno));
    closedir(folder);
}

/* The job that has a rank. */
static uint64_t job_of(const struct gadget *g, size_t size, uint64_t rank, uint64_t jobs)
{
    uint64_t job = 0, from = 0, to = 0;
    expect_answer(calduvren_job(g->wires, size, job, jobs, &from, &to));
    while (to <= rank)
        expect_answer(calduvren_job(g->wires, size, ++job, jobs, &from, &to));
    return job;
}

/* Returns whether the notion is covered: it holds, or it is broken. */
static int print_answer(const struct gadget *g, const char *name, size_t notion, const struct list *list, uint64_t jobs)
{
    uint16_t set[CALDUVREN_MAX_SIZE];
    uint64_t answer = 0, rank = 0;
    size_t size = 0;
    expect_answer(pool(g, notion, list, 0, &answer, &size, &rank));
    if (answer == CALDUVREN_POOL_HOLDS) {
        printf("%s holds\n", name);
    } else if (answer == CALDUVREN_POOL_UNCOVERED) {
        printf("%s uncovered at size %zu rank %" PRIu64 ": run job %" PRIu64 " again\n", name, size, rank,
               job_of(g, size, rank, jobs));
    } else {
        expect_answer(calduvren_set_from_rank(g->wires, size, rank, set, CALDUVREN_MAX_SIZE));
        printf("%s broken at size %zu rank %" PRIu64 ", wires", name, size, rank);
        for (size_t i = 0; i < size; i++)
            printf(i + 1 < size ? " %u" : " %u\n", (unsigned)set[i]);
    }
    flush();
    return answer != CALDUVREN_POOL_UNCOVERED;
}

/* Goes to the folder. Where jobs will be run it is made, unless it is there; a pool of a folder that is not there would
 * only say that all is uncovered. */
static void enter(const char *folder, int make)
{
    if ((make && mkdir(folder, 0777) != 0 && errno != EEXIST) || chdir(folder) != 0)
        give_up(folder, strerror(errno));
}

int main(int argument_count, char **arguments)
{
    static struct gadget g;
    static struct list lists[2];
    if (argument_count != 4 && argument_count != 5)
        give_up("usage", "divided FILE JOBS FOLDER [JOB or pool]");
    uint64_t jobs = number_of(arguments[2], 1, CALDUVREN_MAX_JOBS);
    int pool_only = argument_count == 5 && strcmp(arguments[4], "pool") == 0;
    int one_job = argument_count == 5 && !pool_only;
    uint64_t job = one_job ? number_of(arguments[4], 0, jobs - 1) : 0;
    read_file(&g, arguments[1]);
    size_t offset = 0;
    calduvren_status status = calduvren_read_text(g.text, g.text_length, g.table, sizeof g.table,
                                                  &g.order, &g.shares, &g.masks, &g.wires, &offset);
    if (status != CALDUVREN_OK) {
        printf("refused %" PRIu64 " at %zu\n", status, offset);
        flush();
        return 1;
    }
    enter(arguments[3], !pool_only);
    gather(&g, lists); /* a folder that can not be pooled is told before the work, not after it */
    if (!pool_only) {
        run_jobs(&g, job, one_job ? job + 1 : jobs, jobs, one_job);
        gather(&g, lists);
    }
    int ni_covered = print_answer(&g, "NI", CALDUVREN_NI, &lists[0], jobs);
    int sni_covered = print_answer(&g, "SNI", CALDUVREN_SNI, &lists[1], jobs);
    return ni_covered && sni_covered ? 0 : 3;
}
