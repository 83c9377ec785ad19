/* A call of softfax, over sound or a modem: its station and terminal, when it is stopped, and what is told of it. */
#ifndef CALL_H
#define CALL_H
#include "header.h"
#include "options.h"
#include "pages.h"
#include "terminal.h"

typedef struct call {
    const options *given;
    uint64_t number;            /* of many, from 1; 0: it is the only one */
    char caller_number[32], caller_name[40]; /* as the modem has told them */
    g3_document document;       /* of a caller, until its station has it */
    pages_sent sent[MOST_IMAGES]; /* its pages */
    int count;
    header header;              /* the line at their heads, if there is one */
    g3_terminal station;
    terminal *terminal;         /* NULL before the call is on */
    pages_folder folder;
    int64_t millis;             /* of the call's own clock */
    int stop;                   /* how it has been stopped */
    uint64_t confirmed;         /* pages of a caller that were told of */
    const char *why;            /* why there was no call, or why it was lost; NULL: nothing is known */
    char fault[400];            /* the text of that */
} call;

/* Reads the pages, or looks at the folder; returns whether all is there. Every fault is told. */
int call_prepare(call *it);
/* The first fault is kept: why there is no call, or why it was lost. */
void call_fails(call *it, const char *name, const char *why);
/* A call has come that is answered now, from this number and name, as the modem says; "": it doesn't. */
void call_rings(call *it, const char *number, const char *name);
/* Begins the call over a modem that has no more than these, G3_V27TER, G3_V29 or G3_V17; returns whether it could. The modem stays the
 * program's. */
int call_begin(call *it, uint32_t modems, const modem_kind *kind, modem *modem);
/* One slice of 5 ms, as terminal_step has it; and stops the call if it is to be stopped. */
void call_step(call *it, const int16_t *in, int16_t *out);
/* How the call is to be stopped now, also if it hasn't begun: STOP_NOT and so on. */
int call_heed(call *it);
int call_is_over(const call *it);
/* Tells how it ended; returns whether normally. */
int call_end(call *it);
void call_free(call *it);
#endif
