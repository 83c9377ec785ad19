/* Our end of a call over a pty, for trials: call.c as softfax has it, with pages in files, on a tty that tty.c opens as a user's; and on
 * its other side a Class 1 modem of this process. All of it goes by the trial's clock. */
#ifndef ON_PTY_H
#define ON_PTY_H
#include "behind.h"

/* 0 if it can't begin, and that is told. The way stays the program's. The folder is for files: those of the caller's pages, and those that
 * the answerer keeps, which are looked at in the end. */
int trial_on_pty(party *out, const trial *kind, int calls, const behind_way *way, const char *folder);
#endif
