/* A Class 1 modem in this process, for tests: commands and data on a port, samples on a line. t31.c has one of its own over bits.c's line;
 * spandsp.c has that of libspandsp. */
#ifndef SOFT_H
#define SOFT_H
#include "modem.h"
#include "port.h"

/* What is unlike the modem's own way, as other modems are. */
typedef struct soft_ways {
    int xoff;    /* it says XOFF and XON, and loses what doesn't fit */
    int echoes;  /* it echoes commands, after ATE0 too */
    int silent;  /* it doesn't say +FCERROR: +FRM goes on if V.21 comes */
    int fixed;   /* it has no adaptive reception: +FAR is an error */
    int late;    /* milliseconds until octets come to the host, as over USB */
    int repeats; /* it says CONNECT twice before a frame */
    int chatty;  /* it says other things too after CAN */
    int mute;    /* after so many milliseconds it says nothing more; 0: never */
} soft_ways;

typedef struct soft soft; /* each file that makes one defines its own */
enum { SOFT_DIALS, SOFT_ANSWERS, SOFT_HANGS_UP };

typedef struct soft_kind {
    /* `event`: what the modem does on the line. Returns NULL if memory is refused. */
    soft *(*make)(const port *host, const soft_ways *ways, void (*event)(void *user, int what), void *user);
    void (*free)(soft *it);
    void (*ring)(soft *it);
    void (*connect)(soft *it, int calls); /* the call that it dials or answers is on */
    void (*step)(soft *it, const int16_t *in, int16_t *out); /* a slice of 5 ms */
} soft_kind;

extern const soft_kind soft_of_bits, soft_of_spandsp;

/* Octets between a host and a modem in this process. */
typedef struct duct { ring to_modem, to_host; } duct;
port duct_host(duct *it);
port duct_modem(duct *it);
#endif
