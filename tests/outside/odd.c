/*
 * Stands between a program and the C library, and lets the system do what it may do and seldom does. A program started
 * with LD_PRELOAD naming this library says so first, on standard error; the variable ODD says what is odd:
 *
 *   errno        errno is not 0 when the program starts
 *   interrupted  signals interrupt each read of standard input many times in a row before it gives a few bytes
 *   short        a read of standard input gives one byte at most, a write to standard output or to standard error
 *                takes one at most
 *   breaks       standard input gives a few bytes, and then a read fails
 *   ended        a read after one that met the end of standard input fails, and that is said on standard error: at a
 *                terminal it would wait for a user who has ended the text already
 *   leaves       a second write to standard output fails: its reader has what came first, and is gone
 *
 * build: gcc -O2 -shared -fPIC tests/outside/odd.c -o target/outside/odd.so     (in the repository's root)
 */
#define _GNU_SOURCE
#include <errno.h>
#include <stdio.h>
#include <stdlib.h>
#include <string.h>
#include <sys/syscall.h>
#include <unistd.h>

/* More than a program gets over that makes an interrupted read again only once, or only so often. */
#define INTERRUPTIONS 1000
/* So that a text takes several reads, and one that takes an interruption for the end loses the rest. */
#define FEW 10

static const char *odd = "";
static unsigned long reads, prints;
static int ended;

static int is(const char *name)
{
    return strcmp(odd, name) == 0;
}

__attribute__((constructor)) static void start(void)
{
    if (getenv("ODD") != NULL)
        odd = getenv("ODD");
    dprintf(STDERR_FILENO, "odd: %s\n", odd);
    errno = is("errno") ? EBADF : 0;
}

static ssize_t fail(int reason)
{
    errno = reason;
    return -1;
}

static ssize_t read_input(void *buffer, size_t length)
{
    reads++;
    if (is("interrupted") && reads % (INTERRUPTIONS + 1) != 0)
        return fail(EINTR);
    if (is("breaks") && reads > 1)
        return fail(EIO);
    if (is("ended") && ended) {
        dprintf(STDERR_FILENO, "odd: a read after the end\n");
        return fail(EIO);
    }
    if ((is("interrupted") || is("breaks")) && length > FEW)
        length = FEW;
    if (is("short") && length > 1)
        length = 1;
    ssize_t taken = syscall(SYS_read, STDIN_FILENO, buffer, length);
    ended = taken == 0 && length > 0;
    return taken;
}

ssize_t read(int file, void *buffer, size_t length)
{
    return file == STDIN_FILENO ? read_input(buffer, length) : syscall(SYS_read, file, buffer, length);
}

ssize_t write(int file, const void *buffer, size_t length)
{
    if (file == STDOUT_FILENO && is("leaves") && prints++ > 0)
        return fail(EPIPE);
    if ((file == STDOUT_FILENO || file == STDERR_FILENO) && is("short") && length > 1)
        length = 1;
    return syscall(SYS_write, file, buffer, length);
}
