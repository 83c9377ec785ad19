/* The line at the head of each page that is sent: who sends it, when the call began, and which page of how many it is. */
#ifndef HEADER_H
#define HEADER_H
#include "g3fax.h"

/* columns of the text, most columns of a page, and characters of the whole line that differ at most */
enum { HEADER_MOST = 60, HEADER_COLUMNS = 2432 / 16, HEADER_GLYPHS = HEADER_MOST + 20, HEADER_DOTS = 16 };

/* the font of Debian's package unifont: a line for each character, its code, a colon and its dots in hexadecimal digits */
#define HEADER_FONT "/usr/share/unifont/unifont.hex"

/* A character of 16 rows of 8 or 16 dots. */
typedef struct header_glyph {
    uint32_t code;
    int columns; /* 1 or 2; 0: the font doesn't have it */
    uint8_t dots[HEADER_DOTS][2];
} header_glyph;

typedef struct header {
    uint32_t text[HEADER_MOST];
    int length;      /* of the text */
    char when[24];   /* when the call began */
    header_glyph glyphs[HEADER_GLYPHS];
    int count;       /* of the glyphs */
} header;

/* Returns whether a text has 1 to 60 characters, in UTF-8, that are written one by one from left to right. That it hasn't is told. */
int header_is_text(const char *text);
/* Reads such a text, and its glyphs from a font; returns whether it could. That it couldn't is told. */
int header_new(header *out, const char *text, const char *font);
/* Notes the time: the call begins. */
void header_stamp(header *it);
/* Paints the line over the first rows of a page, 16 of 3.85 lines a millimeter or 32 of 7.7. A page with fewer rows gets as many. */
g3_status header_paint(const header *it, int number, int of, g3_page *page);
#endif
