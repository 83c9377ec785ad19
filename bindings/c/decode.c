/* decode IN OUT.pbm mh|mmr msb|lsb WIDTH: a coded page as a raw PBM file, row by row, in memory that doesn't grow with the page. Of a page
 * that can't be read, the rows that are whole. A PBM file begins with the number of its rows, so IN is read twice; if it is a pipe, from a
 * temporary file. OUT is written last, from another one, so it may be IN. */
#include "g3fax.h"
#include "files.h"
#include <string.h>

enum { UNREADABLE = 1000 }; /* what no function of the library answers: the file can't be read */

/* Whether a page can't be read. */
static int is_fault(g3_status status)
{
    return status == G3_NO_ROWS || (status >= G3_BAD_CODE && status <= G3_TOO_MANY_CODED_ROWS);
}

/* Gives the rows that are whole to a file, unless it is NULL, and counts them. Answers why no row more is given, and the place of that. */
static g3_status give_rows(g3_row_reader *reader, FILE *to, uint32_t *rows, uint64_t *place)
{
    uint8_t row[304];
    uint64_t count = 0;
    g3_status status;
    while ((status = g3_row_reader_next(reader, row, sizeof row, &count, place)) == G3_OK) {
        if (to != NULL && fwrite(row, 1, count, to) != count) return G3_NO_ROOM;
        *rows += 1;
    }
    return status;
}

/* Feeds octets to a reader, and gives the rows. G3_OK where it can take more of them. */
static g3_status feed(g3_row_reader *reader, const uint8_t *octets, size_t length, FILE *to, uint32_t *rows, uint64_t *place)
{
    uint64_t taken = 0;
    for (size_t at = 0; at < length; at += taken) {
        g3_status status = g3_row_reader_feed(reader, octets + at, length - at, &taken);
        if (status == G3_OK) status = give_rows(reader, to, rows, place);
        if (taken == 0 || (status != G3_NOTHING && !is_fault(status))) return status;
    }
    return G3_OK;
}

/* Reads a page. The status is G3_NOTHING at the page's end; of a page that can't be read it is that of the fault, and *place its bit. */
static g3_status read_page(FILE *from, const g3_code *code, FILE *to, uint32_t *rows, uint64_t *place)
{
    g3_row_reader reader = G3_EMPTY;
    uint8_t octets[4096];
    size_t length = 0;
    g3_status status = g3_row_reader_new(&reader, code);
    while (status == G3_OK && (length = fread(octets, 1, sizeof octets, from)) > 0)
        status = feed(&reader, octets, length, to, rows, place);
    if (status == G3_OK && ferror(from)) status = UNREADABLE;
    if (status == G3_OK) status = give_rows(&reader, to, rows, place);
    g3_row_reader_free(&reader);
    return status;
}

/* The file itself, or, if it can't be read twice, a temporary file with its octets; NULL if there is none. */
static FILE *twice(FILE *from)
{
    uint8_t octets[4096];
    size_t length;
    if (fseek(from, 0, SEEK_SET) == 0) return from;
    FILE *copy = tmpfile();
    while (copy != NULL && (length = fread(octets, 1, sizeof octets, from)) > 0)
        if (fwrite(octets, 1, length, copy) != length) return fclose(copy), NULL;
    if (copy != NULL && (ferror(from) || fflush(copy) != 0)) return fclose(copy), NULL;
    if (copy != NULL) rewind(copy);
    return copy;
}

/* Reads the page once to count its rows, and once more to write them. */
static g3_status decode(FILE *from, const g3_code *code, FILE *to)
{
    uint32_t rows = 0, written = 0;
    uint64_t place = 0;
    g3_status status = read_page(from, code, NULL, &rows, &place);
    if (is_fault(status))
        fprintf(stderr, "fault %u at bit %llu: %s\n", status, (unsigned long long)place, g3_status_text(status));
    else if (status != G3_NOTHING)
        return status;
    rewind(from);
    fprintf(to, "P4\n%u %u\n", code->width, rows);
    return read_page(from, code, to, &written, &place);
}

int main(int argc, char **argv)
{
    if (argc != 6) return fprintf(stderr, "usage: decode IN OUT.pbm mh|mmr msb|lsb WIDTH\n"), 2;
    g3_code code = {.coding = strcmp(argv[3], "mh") ? G3_MMR : G3_MH, .order = strcmp(argv[4], "msb") ? G3_LSB_FIRST : G3_MSB_FIRST,
                    .width = (uint32_t)atoi(argv[5])};
    FILE *from = fopen(argv[1], "rb"), *to = from == NULL ? NULL : tmpfile();
    if (to == NULL) return perror(argv[1]), 1;
    FILE *code_file = twice(from);
    if (code_file == NULL) return perror(argv[1]), 1;
    g3_status status = decode(code_file, &code, to);
    if (status == UNREADABLE) perror(argv[1]);
    else if (status != G3_NOTHING && !is_fault(status)) fprintf(stderr, "decode: %s\n", g3_status_text(status));
    if (code_file != from) fclose(code_file);
    fclose(from);
    if (status != G3_NOTHING && !is_fault(status)) return fclose(to), 1;
    if (!give_file(to, argv[2])) return perror(argv[2]), 1;
    return status == G3_NOTHING ? 0 : 1;
}
