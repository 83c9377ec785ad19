/* Calls in one process, for tests: two ends, a line between them, and what came of it. */
#ifndef TRIAL_H
#define TRIAL_H
#include "g3fax.h"
#include "line.h"
#include "paper.h"
#include "terminal.h"

enum { MOST_PAGES = 3 };

/* What a call is made of. */
typedef struct trial {
    line_kind line;
    uint32_t modems;           /* G3_V27TER, G3_V29 or G3_V17 */
    uint32_t coding;           /* G3_MMR or G3_MH */
    uint32_t pages;            /* how many of the papers */
    uint32_t limit;            /* how many pages wait in our answerer's memory */
    uint64_t seed;
    const paper *papers;
    const paper *stored;       /* what is to be stored; NULL: the papers */
    const char *header, *font; /* of our caller on a pty: the line at the head of each page; NULL: none */
    int standard;              /* our caller on a pty sends pages of 3.85 lines a millimeter */
    int ctc;                   /* our answerer answers CTC */
    int ced_joins_dis;         /* the answerer's DIS follows its CED with no silence between them, as Class 1 modems have it */
    int has_no_correction;     /* libspandsp's terminal has no error correction */
    const char *identity;      /* how our end is named; NULL: it isn't */
    int stops;                 /* 1: our caller is stopped, at stops_at; 2: and is to hurry */
    int answerer_stops;        /* the same of our answerer */
    int64_t stops_at;          /* milliseconds since it began */
    const char *tells;         /* what happens is told on standard error; NULL: nothing */
} trial;

/* What came of it. */
typedef struct outcome {
    const char *caller, *answerer; /* how each ended: "normal", or why not */
    uint64_t confirmed;            /* pages, as the caller counts */
    uint32_t equal, wrong;         /* stored pages that are those of the document, in order, and others */
    uint32_t seconds;              /* how long the call was */
    uint32_t stops;                /* how often a tty was stopped by XOFF */
    g3_figures counted[2];         /* by our answerer, and by our caller */
} outcome;

/* An end of a call, ours or another. */
typedef struct party {
    void *it;
    void (*step)(void *it, const int16_t *in, int16_t *out);
    int (*is_over)(void *it);
    const char *(*ending)(void *it);
    void (*leave)(void *it, outcome *out); /* counts its pages, and frees it */
} party;

/* Our end; 0 where memory is refused. */
int trial_ours(party *out, const trial *kind, int calls);
/* The same over a modem that stays the program's. */
int trial_ours_by(party *out, const trial *kind, int calls, const modem_kind *with, modem *modem);
/* Runs a call until both ends are over, or for 900 s; frees both. */
void trial_run(party *caller, party *answerer, const trial *kind, outcome *out);
/* Counts a stored page: it should be the next paper. */
void trial_judge(const trial *kind, outcome *out, uint32_t width, uint32_t rows, const uint8_t *pixels);
/* How a call of ours has ended. */
const char *trial_ending(const g3_terminal *station, const terminal *it);
/* Whether both ends ended normally and all pages are there. */
int trial_went_well(const trial *kind, const outcome *it);
/* Whether what must never be is: a wrong page, or one that is confirmed and missing. */
int trial_is_broken(const outcome *it);
#endif
