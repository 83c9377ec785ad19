/* Calls over a Class 1 modem: one, or one after the other. */
#ifndef SERVICE_H
#define SERVICE_H
#include "call.h"
#include "tty.h"

/* Runs one call that is prepared, by the machine's clock, and tells of its end; returns whether it ended normally, and all files could be
 * written. Where many are to be answered (options, most_calls): returns whether as many were, or as many as came before a signal. */
int service_run(call *it);

/* The same in steps, for a program with a clock of its own. */
typedef struct service {
    const options *given;
    call *call;
    const tty_clock *clock;
    FILE *trace;           /* NULL: none */
    tty_call *on;          /* the open tty; NULL: it has to be opened */
    int64_t tries;         /* when it is tried to be opened */
    uint64_t calls;        /* how many have been */
    int has_failed;        /* a call, or the tty, so that the status is 1 */
    char told[400];        /* the last fault of a tty that is waited for: it is told once */
} service;
/* What is NULL or 0 after that is as it is at first. */
void service_begin(service *it, call *call, const tty_clock *clock, FILE *trace);
/* Waits once, and does what is due then; returns whether it goes on. */
int service_go_on(service *it);
/* Closes the tty. */
void service_end(service *it);
#endif
