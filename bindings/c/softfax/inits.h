/* The commands that modems are set up with, by name, in the file inits.txt beside the program. */
#ifndef INITS_H
#define INITS_H

enum { INITS_ROOM = 80 };
/* Writes the command of a name, for RTS and CTS or for XON and XOFF, into `out`; returns whether there is one. A fault is told. */
int inits_find(const char *name, int xon, char out[INITS_ROOM]);
#endif
