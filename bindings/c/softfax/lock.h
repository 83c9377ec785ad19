/* The lock files of a tty, as programs with modems make them: /var/lock/LCK..NAME has the number of the process that uses it. A tty is
 * locked by the name that was given and by that of the device itself, since another program may know either: by both or by none. */
#ifndef LOCK_H
#define LOCK_H
#include <stdint.h>

enum { LOCK_NAMES = 2, LOCK_ROOM = 300 };

typedef struct lock {
    int count;                           /* how many files are made */
    char names[LOCK_NAMES][LOCK_ROOM];
    uint64_t files[LOCK_NAMES];          /* their numbers on the disk */
} lock;

/* Makes the lock files, if this program may write there. A file of a process that is gone is taken over; it is never away meanwhile.
 * Returns the number of the process that has the tty; 0: none has. Of many that try at once one has it, and the others are told of that. */
long lock_take(lock *it, const char *tty);
/* Removes the files that are still this program's. */
void lock_leave(lock *it);
#endif
