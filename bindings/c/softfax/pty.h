/* A pty in this process, for tests: a program opens the tty that is named, and a modem has its other side. The kernel carries octets by and
 * by; these functions wait for that by the machine's clock, 10 s at most. So what one side has written is there for the other one before a
 * test's own clock goes on, and a call is the same each time. */
#ifndef PTY_H
#define PTY_H
#include <stdint.h>

typedef struct pty {
    int master, slave; /* the slave stays open, so that the pty stays when a program closes it */
    char name[64];
    uint64_t taken;    /* octets that were read here */
    uint32_t stops;    /* how often an XOFF has stopped the tty */
} pty;

/* Returns whether there was one to be had; -1 are descriptors that aren't open. */
int pty_new(pty *out);
void pty_free(pty *it);
/* Reads octets of the program, which has written so many by now. Returns how many were read, at most `room`; -1: the pty has failed. */
int pty_read(pty *it, uint64_t written, uint8_t *octets, int room);
/* Writes octets for the program; returns how many, or -1. An XOFF or XON that the tty minds has taken effect. */
int pty_write(pty *it, const uint8_t *octets, int count);
#endif
