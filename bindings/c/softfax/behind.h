/* Our end of a call behind a Class 1 modem in this process, joined to it by two rings of octets in place of a pty. It is for memory-test
 * alone, which counts growths of memory: on a pty those of files would be among them, and each of its many calls would take longer. Other
 * trials are on ptys, by on_pty.c. */
#ifndef BEHIND_H
#define BEHIND_H
#include "soft.h"
#include "trial.h"

/* What stands between the terminal and the line. */
typedef struct behind_way {
    const soft_kind *kind;
    soft_ways ways;
} behind_way;

/* 0 if memory is refused. The way stays the program's. */
int trial_behind(party *out, const trial *kind, int calls, const behind_way *way);
#endif
