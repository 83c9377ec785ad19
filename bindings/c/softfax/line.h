/* A telephone line for trials: noise, hum, and carriers that are cut. Levels are in dBm0, where a sine of full scale is 3.14 dBm0; the
 * carriers leave at -14. */
#ifndef LINE_H
#define LINE_H
#include "modem.h"

typedef struct line_kind {
    const char *name;
    int noise;    /* white noise in both directions; 0: none */
    int always;   /* it is there in silences too, else only while there is a signal */
    int hum;      /* 50 Hz in both directions; 0: none */
    int echo, late; /* each side hears itself: so many dB of what it says, so many milliseconds later, at most 500; 0: no echo */
    int cut;      /* the caller's carrier after the first DIS that is cut: 1 is DCS, 2 the check, 3 the page, 4 the PPS; 0: none */
    int from, lasts; /* when in it noise of -10 dBm0 begins, and how long it lasts, in milliseconds */
    int every;    /* such noise strikes each so many milliseconds, on average; 0: never */
} line_kind;

enum { PAST = 4096 }; /* samples */

/* A direction of the line. */
typedef struct wire {
    int16_t past[PAST];
    uint32_t at;    /* where the next sample goes */
    uint32_t delay; /* samples, less than a slice: two ends have no slices in common */
    int silent;   /* slices of silence, one after the other */
    int signals;  /* how many signals there have been */
    int lasted;   /* slices of the last one */
    int hit;      /* slices that noise strikes from now on */
    double hum[2]; /* the last two samples of its hum */
} wire;

typedef struct line {
    line_kind kind;
    double noise, strike, echo; /* as factors of a sample */
    uint64_t chance;      /* the state of a generator */
    wire caller, answerer;
    int commands;         /* the caller's signals since the first DIS */
} line;

void line_new(line *out, const line_kind *kind, uint64_t seed);
/* A slice in each direction: what is said, and what is heard of it. */
void line_carry(line *it, const int16_t *caller, const int16_t *answerer, int16_t *to_caller, int16_t *to_answerer);
#endif
