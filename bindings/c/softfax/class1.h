/* A fax modem that takes the commands of Class 1 (T.31, TIA-578), as a modem for a terminal. Nothing here waits: the program calls
 * class1_step each 5 ms, and earlier if octets are there. Time is what the program says it is. */
#ifndef CLASS1_H
#define CLASS1_H
#include "modem.h"
#include "port.h"
#include <stdio.h>

typedef struct class1_setup {
    const char *const *inits; /* commands that the modem is set up with, as "AT&K3" */
    int init_count;
    const char *number; /* what is dialled; NULL: it answers */
    int rings;          /* how often it rings before it is answered */
    FILE *trace;        /* a line is written here for each command, result and run of data; NULL: none is */
} class1_setup;

extern const modem_kind modem_of_class1;
/* Makes a modem on a port; what `setup` points at is kept by address. It sets the modem up, and dials or waits for RING. The terminal is
 * made once the stage is CLASS1_IS_ON: a caller's other side has been heard by then, and an answerer's terminal begins with its DIS. NULL
 * if memory is refused. */
modem *class1_new(const port *port, const class1_setup *setup);
/* Hangs up: dialling, waiting and any command under way are left. */
void class1_hang_up(modem *it);

enum { CLASS1_SETS_UP, CLASS1_WAITS, CLASS1_IS_ON, CLASS1_HANGS_UP, CLASS1_IS_OVER };
/* Reads and writes what can be read and written; returns the stage. `now`: milliseconds. */
int class1_step(modem *it, int64_t now);
/* The fastest modems that it has said it sends by, of a caller, or receives by: G3_V27TER, G3_V29 or G3_V17. 0: it hasn't said, or none. */
uint32_t class1_speeds(const modem *it);
/* After the call's end: waits for another ring, with no set-up. Returns whether it does: the modem must have said that it is on hook. */
int class1_again(modem *it);
/* Who calls, as the modem has told it (Caller-ID, NMBR and NAME); "": it hasn't. */
const char *class1_caller_number(const modem *it);
const char *class1_caller_name(const modem *it);
/* Why there was no call, or why it was lost, in words; NULL: nothing went wrong. */
const char *class1_why(const modem *it);
/* Returns whether the call is lost: the modem is gone, has said so, or has fallen silent. */
int class1_is_lost(const modem *it);
#endif
