#include "paper.h"
#include <stdlib.h>
#include <string.h>

/* A letter is 5 by 6 dots of 2 by 4 pixels, in a cell of 16 by 32. */
enum { CELL = 16, LINE = 32, DOT_WIDTH = 2, DOT_HEIGHT = 4, DOTS = 5, LINES = 6 };

uint32_t draw(uint64_t *state)
{
    *state = *state * 6364136223846793005u + 1442695040888963407u;
    return (uint32_t)(*state >> 32);
}

static void blacken(paper *it, uint32_t x, uint32_t y)
{
    it->pixels[(uint64_t)y * it->stride + x / 8] |= (uint8_t)(0x80 >> x % 8);
}

/* A letter whose dots are the bits of a number. */
static void draw_letter(paper *it, uint32_t left, uint32_t top, uint32_t dots)
{
    for (uint32_t i = 0; i < DOT_WIDTH * DOTS * DOT_HEIGHT * LINES; i++) {
        uint32_t x = i % (DOT_WIDTH * DOTS), y = i / (DOT_WIDTH * DOTS);
        if (dots >> (x / DOT_WIDTH + DOTS * (y / DOT_HEIGHT)) & 1) blacken(it, left + x, top + y);
    }
}

int paper_new(paper *out, uint32_t width, uint32_t rows, uint64_t seed)
{
    out->width = width;
    out->rows = rows;
    out->stride = (width + 7) / 8;
    out->pixels = calloc(rows, out->stride);
    if (out->pixels == NULL) return 0;
    uint32_t columns = width / CELL, letters = columns * (rows / LINE);
    for (uint32_t i = 0; i < letters; i++) draw_letter(out, i % columns * CELL, i / columns * LINE, draw(&seed) & draw(&seed));
    return 1;
}

void paper_free(paper *it)
{
    free(it->pixels);
    it->pixels = NULL;
}

int paper_is(const paper *it, uint32_t width, uint32_t rows, const uint8_t *pixels)
{
    return width == it->width && rows == it->rows && memcmp(pixels, it->pixels, (uint64_t)rows * it->stride) == 0;
}
