/* Pages for trials of calls: rows of dots, as dense as small print. */
#ifndef PAPER_H
#define PAPER_H
#include <stdint.h>

typedef struct paper {
    uint32_t width, rows; /* pixels */
    uint32_t stride;      /* octets a row */
    uint8_t *pixels;      /* as in a raw PBM file */
} paper;

/* The next number of a generator: 0 to 2^32 - 1, the same on every machine. */
uint32_t draw(uint64_t *state);

/* Whether memory was there. The seed says which letters the page has. */
int paper_new(paper *out, uint32_t width, uint32_t rows, uint64_t seed);
void paper_free(paper *it);
/* Whether these are the rows of the page; `pixels` has rows of the same stride. */
int paper_is(const paper *it, uint32_t width, uint32_t rows, const uint8_t *pixels);
#endif
