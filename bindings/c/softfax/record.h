/* What came of a call, on standard error: as lines of JSON, an object for each page and one for the end, or lines of words for the end. */
#ifndef RECORD_H
#define RECORD_H
#include "g3fax.h"

/* A call that begins. */
typedef struct record_call {
    uint64_t call;            /* its number, from 1; 0: it is the only one */
    const char *number, *name; /* who calls, as the modem says; "": it doesn't */
} record_call;
/* Tells of it, if there is anything to tell. */
void record_call_json(const record_call *it);
void record_call_words(const record_call *it);

/* A page that an answerer has stored, or that a caller has had confirmed. */
typedef struct record_page {
    const char *what;   /* "page": it is stored; or "confirmed" */
    uint64_t number;    /* from 1 */
    const char *file;
    unsigned image;     /* of the file, from 1; 0: its only one */
    uint32_t width, height, fine;
    int square;         /* the file has each row twice */
    const g3_figures *figures; /* how the other station has named itself */
} record_page;
void record_page_json(const record_page *it);

typedef struct record_end {
    const char *end;    /* "normal", or why not, in a word: those of STATION.md, "refused" by the terminal itself, "no-call" */
    const char *what;   /* "confirmed" or "pages" */
    uint64_t pages;
    const g3_figures *figures;
    const char *why;    /* in words; NULL: nothing more is known */
    record_call of;
    const char *folder; /* of its pages; "": it has none of its own */
    uint64_t seconds;
} record_end;
void record_end_json(const record_end *it);
void record_end_words(const record_end *it);
#endif
