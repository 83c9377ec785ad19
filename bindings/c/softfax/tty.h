/* A call over a Class 1 modem on a tty. */
#ifndef TTY_H
#define TTY_H
#include "call.h"
#include <stdio.h>

/* The time of a call. */
typedef struct tty_clock {
    void *user;
    int64_t (*now)(void *user); /* milliseconds */
    void (*wait)(void *user, int fd, int millis); /* until the tty has octets, or so long; a signal may end it early */
} tty_clock;

/* Opens the tty, and sets its modem up; NULL if it can't be opened: call_fails has why. A line is written to the trace for each command and
 * result, unless it is NULL. */
typedef struct tty_call tty_call;
tty_call *tty_begin(call *it, const tty_clock *clock, FILE *trace);
/* Waits once, and does what is due then; returns whether the call goes on. */
int tty_go_on(tty_call *it);
/* The call is over: its terminal hears no more, and call_fails has why, if the modem knows. */
void tty_finish(tty_call *it);
/* After that: the modem, which is on hook, waits for a ring of the next call. 0: the tty has to be opened anew. */
int tty_next(tty_call *it, call *next);
/* Closes the tty, and frees all but the call and the trace; returns whether a terminal could be made. */
int tty_end(tty_call *it);
/* How many octets the tty has taken, for tests. */
uint64_t tty_written(const tty_call *it);
#endif
