#include "pty.h"
#include <errno.h>
#include <fcntl.h>
#include <poll.h>
#include <sched.h>
#include <stdio.h>
#include <stdlib.h>
#include <string.h>
#include <sys/ioctl.h>
#include <termios.h>
#include <unistd.h>

enum { XON = 17, XOFF = 19, MOST_INPUT = 4095 /* a tty has no more ready for a program */ };
enum { AT_ONCE = 50, SOON = 1000, LATEST = 11000 }; /* tries: these at once, then when others have run, then a millisecond later each */

/* Lets the kernel go on; returns whether it is worth another try. */
static int wait_a_while(int *tries)
{
    if (++*tries > SOON) poll(NULL, 0, 1);
    else if (*tries > AT_ONCE) sched_yield();
    if (*tries < LATEST) return 1;
    fprintf(stderr, "a pty doesn't carry what was written\n");
    return 0;
}

int pty_new(pty *out)
{
    const char *name;
    *out = (pty){.master = -1, .slave = -1};
    out->master = posix_openpt(O_RDWR | O_NOCTTY);
    if (out->master >= 0 && grantpt(out->master) == 0 && unlockpt(out->master) == 0 && (name = ptsname(out->master)) != NULL
        && strlen(name) < sizeof out->name) {
        strcpy(out->name, name);
        out->slave = open(name, O_RDWR | O_NOCTTY);
        if (out->slave >= 0 && fcntl(out->master, F_SETFL, O_NONBLOCK) == 0) return 1;
    }
    pty_free(out);
    return 0;
}

void pty_free(pty *it)
{
    if (it->master >= 0) close(it->master);
    if (it->slave >= 0) close(it->slave);
    it->master = it->slave = -1;
}

int pty_read(pty *it, uint64_t written, uint8_t *octets, int room)
{
    uint64_t under_way = written - it->taken;
    int wanted = under_way < (uint64_t)room ? (int)under_way : room, got = 0, tries = 0;
    while (got < wanted) {
        ssize_t more = read(it->master, octets + got, (size_t)(wanted - got));
        if (more > 0) got += (int)more;
        else if (more == 0 || errno != EAGAIN || !wait_a_while(&tries)) return -1;
    }
    it->taken += (uint64_t)got;
    return got;
}

/* How many octets a program can read now. */
static int input(const pty *it)
{
    int count = 0;
    return ioctl(it->slave, FIONREAD, &count) == 0 ? count : -1;
}

/* Returns whether a program can write now: the tty isn't stopped, nor full. */
static int is_ready(const pty *it)
{
    struct pollfd ready = {it->slave, POLLOUT, 0};
    return poll(&ready, 1, 0) > 0;
}

/* The last XON or XOFF of octets, if the tty minds them, and how many there are: it keeps them from the program. 0: none. */
static int flow_of(const pty *it, const uint8_t *octets, int count, int *many)
{
    struct termios is;
    int last = 0;
    *many = 0;
    if (tcgetattr(it->slave, &is) != 0 || (is.c_iflag & IXON) == 0) return 0;
    for (int i = 0; i < count; i++) {
        int is_flow = octets[i] == XON || octets[i] == XOFF;
        if (is_flow) last = octets[i];
        *many += is_flow;
    }
    return last;
}

int pty_write(pty *it, const uint8_t *octets, int count)
{
    int before = input(it), many, tries = 0;
    ssize_t put = count > 0 ? write(it->master, octets, (size_t)count) : 0;
    if (before < 0 || put < 0) return put < 0 && errno == EAGAIN ? 0 : -1;
    int last = flow_of(it, octets, (int)put, &many), wanted = before + (int)put - many;
    if (wanted > MOST_INPUT) wanted = MOST_INPUT;
    while (input(it) < wanted || (last == XOFF && is_ready(it))) {
        if (!wait_a_while(&tries)) return -1;
    }
    it->stops += last == XOFF;
    while (last == XON && !is_ready(it) && tries < SOON) tries++; /* a tty that is full stays so until it is read */
    return (int)put;
}
