#include "exchange.h"
#include "line.h"
#include "pty.h"
#include <signal.h>
#include <stdio.h>
#include <string.h>
#include <termios.h>
#include <time.h>
#include <unistd.h>

typedef struct exchange {
    const soft_kind *kind;
    soft *ends[2];
    pty ptys[2];
    int dials, is_on; /* dials: which end does; -1: none */
} exchange;

static volatile sig_atomic_t is_interrupted;
static exchange lines = {.dials = -1};

static void on_signal(int number)
{
    (void)number;
    is_interrupted = 1;
}

static void on_event(void *user, int what)
{
    int end = user == &lines.ends[1];
    if (what == SOFT_DIALS) lines.dials = end;
    if (what == SOFT_HANGS_UP) lines.is_on = 0, lines.dials = -1;
    if (what != SOFT_ANSWERS || lines.dials != !end) return;
    lines.kind->connect(lines.ends[end], 0);
    lines.kind->connect(lines.ends[!end], 1);
    lines.is_on = 1;
}

/* The octets of another process: how many it has written isn't known here. */
static int master_read(void *user, uint8_t *octets, int room)
{
    ssize_t got = read(((pty *)user)->master, octets, (size_t)room);
    return got < 0 ? 0 : (int)got;
}

static int master_write(void *user, const uint8_t *octets, int count)
{
    ssize_t put = write(((pty *)user)->master, octets, (size_t)count);
    return put < 0 ? 0 : (int)put;
}

/* Makes a pty with a link to it; returns whether it could. */
static int make_pty(pty *out, const char *link)
{
    struct termios raw;
    if (!pty_new(out)) return 0;
    tcgetattr(out->slave, &raw);
    cfmakeraw(&raw); /* or what is said before a program opens it would be echoed */
    tcsetattr(out->slave, TCSANOW, &raw);
    unlink(link);
    return symlink(out->name, link) == 0;
}

static void sleep_until(struct timespec *next)
{
    next->tv_nsec += SLICE_MILLIS * 1000000;
    if (next->tv_nsec >= 1000000000) next->tv_nsec -= 1000000000, next->tv_sec++;
    clock_nanosleep(CLOCK_MONOTONIC, TIMER_ABSTIME, next, NULL);
}

int exchange_run(const soft_kind *kind, char **links)
{
    enum { LONGEST = 600000, RINGS = 3000 };
    static const soft_ways WAYS;
    static const line_kind CLEAN = {.name = "clean"};
    signal(SIGTERM, on_signal);
    signal(SIGINT, on_signal);
    int16_t said[2][SLICE] = {{0}}, to[2][SLICE] = {{0}};
    struct timespec next;
    line line;
    line_new(&line, &CLEAN, 1);
    lines.kind = kind;
    for (int i = 0; i < 2; i++) {
        port host = {&lines.ptys[i], master_read, master_write, NULL, NULL};
        if (make_pty(&lines.ptys[i], links[i])) lines.ends[i] = kind->make(&host, &WAYS, on_event, &lines.ends[i]);
        if (lines.ends[i] == NULL) return perror(links[i]), 0; /* what is left is the process's */
    }
    clock_gettime(CLOCK_MONOTONIC, &next);
    for (int millis = 0; millis < LONGEST && !is_interrupted; millis += SLICE_MILLIS) {
        if (lines.dials >= 0 && !lines.is_on && millis % RINGS == 0) kind->ring(lines.ends[!lines.dials]);
        for (int i = 0; i < 2; i++) kind->step(lines.ends[i], to[i], said[i]);
        line_carry(&line, said[0], said[1], to[0], to[1]);
        sleep_until(&next);
    }
    for (int i = 0; i < 2; i++) kind->free(lines.ends[i]), pty_free(&lines.ptys[i]), unlink(links[i]);
    return 1;
}
