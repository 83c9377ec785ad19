/* encode IN.pbm OUT mh|mmr msb|lsb: the code of the first image of a raw PBM file, row by row, in memory that doesn't grow with the image.
 * Its header has no comment. OUT is written last, from a temporary file, so it may be IN. */
#include "g3fax.h"
#include "files.h"
#include <string.h>

/* Writes the octets of a handle to a file, and frees them. */
static g3_status give_octets(g3_octets *octets, FILE *to)
{
    const uint8_t *data = NULL;
    uint64_t count = 0;
    g3_status status = g3_octets_data(octets, &data, &count);
    if (status == G3_OK && count > 0 && fwrite(data, 1, count, to) != count) status = G3_NO_ROOM;
    g3_octets_free(octets);
    return status;
}

/* Codes the rows of an image, and the end of the page. */
static g3_status code_rows(FILE *from, uint32_t width, uint32_t rows, g3_row_coder *coder, FILE *to)
{
    uint8_t row[304];
    size_t length = (width + 7) / 8;
    g3_octets octets = G3_EMPTY;
    for (uint32_t y = 0; y < rows; y++) {
        if (fread(row, 1, length, from) != length) return G3_SHORT_DATA;
        g3_status status = g3_row_coder_push_row(coder, row, length);
        if (status == G3_OK) status = g3_row_coder_take(coder, &octets);
        if (status == G3_OK) status = give_octets(&octets, to);
        if (status != G3_OK) return status;
    }
    g3_status status = g3_row_coder_finish(coder, &octets);
    return status == G3_OK ? give_octets(&octets, to) : status;
}

static g3_status encode(FILE *from, g3_code *code, FILE *to)
{
    g3_row_coder coder = G3_EMPTY;
    unsigned width = 0, rows = 0;
    if (fscanf(from, "P4 %u %u", &width, &rows) != 2 || fgetc(from) < 0) return G3_BAD_HEADER;
    code->width = width;
    g3_status status = g3_row_coder_new(&coder, code);
    if (status == G3_OK) status = code_rows(from, width, rows, &coder, to);
    g3_row_coder_free(&coder);
    return status;
}

int main(int argc, char **argv)
{
    if (argc != 5) return fprintf(stderr, "usage: encode IN.pbm OUT mh|mmr msb|lsb\n"), 2;
    g3_code code = {.coding = strcmp(argv[3], "mh") ? G3_MMR : G3_MH, .order = strcmp(argv[4], "msb") ? G3_LSB_FIRST : G3_MSB_FIRST};
    FILE *from = fopen(argv[1], "rb"), *to = tmpfile();
    if (from == NULL) return perror(argv[1]), 1;
    if (to == NULL) return perror("a temporary file"), 1;
    g3_status status = encode(from, &code, to);
    fclose(from);
    if (status != G3_OK) return fprintf(stderr, "encode: %s\n", g3_status_text(status)), fclose(to), 1;
    return give_file(to, argv[2]) ? 0 : (perror(argv[2]), 1);
}
