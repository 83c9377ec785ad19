#include "header.h"
#include "files.h"
#include "told.h"
#include <errno.h>
#include <stdio.h>
#include <string.h>
#include <time.h>

/* A dot is 2 pixels wide, and 2 rows high on a fine page: a character of 8 dots is 2 mm by 4 mm on paper. */
enum { COLUMN = 16 /* pixels */, MARGIN = 3 /* columns, which paper may lack */, MOST_LINE = 40 };

/* What stands in each line beside the text. */
static const char ALWAYS[] = " -0123456789:aefgop";

/* Text */

/* Reads a character of UTF-8, and moves on behind it; 0: there is none. */
static uint32_t next_code(const char **text)
{
    static const uint32_t LEAST[] = {0, 0x80, 0x800, 0x10000};
    uint32_t code = (uint8_t)*(*text)++;
    if (code < 0x80) return code;
    int more = code >= 0xf0 ? 3 : code >= 0xe0 ? 2 : 1, all = more;
    if (code < 0xc0 || code >= 0xf8) return 0;
    for (code &= 0x3fu >> more; more > 0; more--) {
        uint32_t octet = (uint8_t)*(*text);
        if ((octet & 0xc0) != 0x80) return 0;
        code = code << 6 | (octet & 0x3f);
        ++*text;
    }
    return code < LEAST[all] || (code >= 0xd800 && code < 0xe000) || code > 0x10ffff ? 0 : code;
}

/* Returns whether a character stands for itself, with no part in how its neighbours look, in a script from left to right. */
static int stands_alone(uint32_t code)
{
    static const uint32_t RANGES[][2] = {{0x20, 0x7e}, {0xa0, 0xac}, {0xae, 0x2ff}, {0x370, 0x482}, {0x48a, 0x58f}, {0x10a0, 0x10ff},
        {0x1e00, 0x1fff}, {0x2010, 0x2027}, {0x2030, 0x205e}, {0x20a0, 0x20cf}, {0x2100, 0x2bff}, {0x3000, 0x3029}, {0x3030, 0x3098},
        {0x309b, 0x31ff}, {0x3400, 0x4dbf}, {0x4e00, 0x9fff}, {0xac00, 0xd7a3}, {0xf900, 0xfaff}, {0xff01, 0xffee}};
    for (size_t i = 0; i < sizeof RANGES / sizeof RANGES[0]; i++) {
        if (code >= RANGES[i][0] && code <= RANGES[i][1]) return 1;
    }
    return 0;
}

static int refuses(const char *why)
{
    told_fault("the header", why);
    return 0;
}

/* Reads a text; returns how many characters it has, or 0, and that is told. */
static int read_text(const char *text, uint32_t out[HEADER_MOST])
{
    char why[80];
    int length = 0;
    while (*text != 0) {
        uint32_t code = next_code(&text);
        if (code == 0) return refuses("it is not UTF-8");
        if (length == HEADER_MOST) return refuses("it is longer than 60 characters");
        snprintf(why, sizeof why, "U+%04X isn't written by itself, from left to right", code);
        if (!stands_alone(code)) return refuses(why);
        out[length++] = code;
    }
    return length > 0 ? length : refuses("it is empty");
}

int header_is_text(const char *text)
{
    uint32_t unused[HEADER_MOST];
    return read_text(text, unused) > 0;
}

/* Font */

static header_glyph *find(header *it, uint32_t code)
{
    for (int i = 0; i < it->count; i++) {
        if (it->glyphs[i].code == code) return &it->glyphs[i];
    }
    return NULL;
}

static void want(header *it, uint32_t code)
{
    if (find(it, code) == NULL) it->glyphs[it->count++].code = code;
}

/* The value of a hexadecimal digit; -1: it is none. */
static int digit(uint8_t octet)
{
    if (octet >= '0' && octet <= '9') return octet - '0';
    if (octet >= 'A' && octet <= 'F') return octet - 'A' + 10;
    return octet >= 'a' && octet <= 'f' ? octet - 'a' + 10 : -1;
}

/* Reads a line of a font, if it is of a glyph that is wanted. */
static void read_glyph(header *it, const uint8_t *line, size_t length)
{
    size_t colon = 0;
    uint32_t code = 0;
    while (colon < length && colon < 6 && digit(line[colon]) >= 0) code = code << 4 | (uint32_t)digit(line[colon++]);
    if (colon == length || line[colon] != ':') return;
    size_t digits = length - colon - 1, each = digits / HEADER_DOTS;
    header_glyph *glyph = find(it, code);
    if (glyph == NULL || glyph->columns != 0 || (digits != 2 * HEADER_DOTS && digits != 4 * HEADER_DOTS)) return;
    for (size_t i = 0; i < digits; i++) {
        int value = digit(line[colon + 1 + i]);
        if (value < 0) return;
        glyph->dots[i / each][i % each / 2] |= (uint8_t)(i % 2 == 0 ? value << 4 : value);
    }
    glyph->columns = (int)each / 2;
}

static void read_lines(header *it, const uint8_t *octets, size_t length)
{
    for (size_t first = 0, last; first < length; first = last + 1) {
        for (last = first; last < length && octets[last] != '\n'; last++) { }
        read_glyph(it, octets + first, last - first - (last > first && octets[last - 1] == '\r'));
    }
}

/* Returns whether all glyphs are there, and the text isn't too wide. */
static int is_whole(header *it, const char *font)
{
    char why[80];
    int columns = 0;
    for (int i = 0; i < it->count; i++) {
        snprintf(why, sizeof why, "the font has no U+%04X of 16 rows of dots", it->glyphs[i].code);
        if (it->glyphs[i].columns == 0) return told_fault(font, why), 0;
    }
    for (int i = 0; i < it->length; i++) columns += find(it, it->text[i])->columns;
    return columns <= HEADER_MOST || refuses("it is wider than 60 columns");
}

int header_new(header *out, const char *text, const char *font)
{
    static const header fresh;
    char why[200];
    size_t length = 0;
    *out = fresh;
    out->length = read_text(text, out->text);
    if (out->length == 0) return 0;
    for (int i = 0; i < out->length; i++) want(out, out->text[i]);
    for (const char *at = ALWAYS; *at != 0; at++) want(out, (uint8_t)*at);
    errno = 0;
    uint8_t *octets = read_file(font, &length);
    snprintf(why, sizeof why, "%s; --header wants a font: Debian's package unifont, or --header-font FILE.hex",
        errno != 0 ? strerror(errno) : "it is too long for a font");
    if (octets == NULL) return told_fault(font, why), 0;
    read_lines(out, octets, length);
    free(octets);
    return is_whole(out, font);
}

/* Pages */

void header_stamp(header *it)
{
    time_t now = time(NULL);
    struct tm is;
    it->when[0] = 0;
    if (localtime_r(&now, &is) != NULL) strftime(it->when, sizeof it->when, "%Y-%m-%d %H:%M", &is);
}

/* The line: at each column the glyph that begins there, or NULL. */
typedef const header_glyph *cells[HEADER_COLUMNS];

static void put(const header *it, uint32_t code, cells line, int *column)
{
    for (int i = 0; i < it->count; i++) {
        if (it->glyphs[i].code != code) continue;
        line[*column] = &it->glyphs[i];
        *column += it->glyphs[i].columns;
        return;
    }
}

/* The text on the left, and time and page on the right. */
static void lay_out(const header *it, int columns, const char *right, cells line)
{
    int column = MARGIN;
    for (int i = 0; i < HEADER_COLUMNS; i++) line[i] = NULL;
    for (int i = 0; i < it->length; i++) put(it, it->text[i], line, &column);
    column = columns - MARGIN - (int)strlen(right);
    for (; *right != 0; right++) put(it, (uint8_t)*right, line, &column);
}

/* Eight dots as sixteen pixels. */
static void spread(uint8_t dots, uint8_t out[2])
{
    uint32_t pixels = 0;
    for (int i = 0; i < 8; i++) pixels |= (dots >> i & 1) * 3u << 2 * i;
    out[0] = (uint8_t)(pixels >> 8);
    out[1] = (uint8_t)pixels;
}

/* Draws a row of dots over a white row of pixels. */
static void draw_row(cells line, int columns, uint32_t y, uint8_t *row)
{
    memset(row, 0, (size_t)columns * COLUMN / 8);
    for (int i = 0; i < columns; i++) {
        for (int half = 0; line[i] != NULL && half < line[i]->columns; half++) spread(line[i]->dots[y][half], row + 2 * (i + half));
    }
}

g3_status header_paint(const header *it, int number, int of, g3_page *page)
{
    char right[MOST_LINE];
    uint8_t row[HEADER_COLUMNS * COLUMN / 8];
    cells line;
    g3_size size = G3_INIT(g3_size);
    g3_page painted = G3_EMPTY;
    g3_status status = g3_page_size(page, &size);
    int columns = (int)size.width / COLUMN;
    uint32_t each = size.fine ? 2 : 1;
    uint64_t count = sizeof row;
    snprintf(right, sizeof right, "%s  page %d of %d", it->when, number, of);
    if (status == G3_OK) status = g3_page_new(&painted, size.width, size.fine);
    if (status == G3_OK) lay_out(it, columns, right, line);
    for (uint32_t y = 0; status == G3_OK && (y < HEADER_DOTS * each || y < size.rows); y++) {
        if (y < HEADER_DOTS * each) draw_row(line, columns, y / each, row);
        else status = g3_page_row(page, y, row, sizeof row, &count);
        if (status == G3_OK) status = g3_page_push_row(&painted, row, sizeof row);
    }
    if (status != G3_OK) return g3_page_free(&painted), status;
    g3_page_free(page);
    *page = painted;
    return G3_OK;
}
