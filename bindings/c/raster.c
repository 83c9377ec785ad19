/* raster IN.pbm OUT.pbm: the first image of a raw PBM file, by way of rows in memory that begin a multiple of 64 octets apart, as an image.
 * The octets between the rows stay as they are. */
#include "g3fax.h"
#include "files.h"

/* The rows of a page in memory that was filled with FILL, as a page again; a status. */
static g3_status moved(g3_page *page, int fill, g3_page *back)
{
    g3_size size = G3_INIT(g3_size);
    uint64_t count = 0, at, between = 0;
    g3_status status = g3_page_size(page, &size);
    if (status != G3_OK) return status;
    uint64_t row = (size.width + 7) / 8, stride = (row + 64) / 64 * 64, room = stride * size.rows;
    uint8_t *rows = malloc(room + 1);
    if (rows == NULL) return G3_NO_MEMORY;
    for (at = 0; at < room; at++) rows[at] = (uint8_t)fill;
    status = g3_page_write_raster(page, stride, rows, room, &count);
    for (at = 0; at < room; at++) between += at % stride >= row && rows[at] == (uint8_t)fill;
    g3_raster raster = {.stride = stride, .width = size.width, .rows = size.rows, .fine = size.fine};
    if (status == G3_OK) status = g3_page_read_raster(rows, count, &raster, back);
    free(rows);
    return status == G3_OK && between != (stride - row) * size.rows ? G3_NOTHING : status;
}

int main(int argc, char **argv)
{
    g3_page page = G3_EMPTY, back = G3_EMPTY;
    size_t length = 0;
    uint64_t images = 0;
    if (argc != 3) return fprintf(stderr, "usage: raster IN.pbm OUT.pbm\n"), 2;
    uint8_t *image = read_file(argv[1], &length);
    if (image == NULL) return perror(argv[1]), 1;
    g3_status status = g3_page_read_pbm(image, length, 0, &page, &images);
    if (status == G3_OK) status = moved(&page, 0xa5, &back);
    if (status == G3_OK) status = save_page(&back, argv[2]);
    if (status != G3_OK) fprintf(stderr, "raster: %s\n", g3_status_text(status));
    free(image);
    g3_page_free(&page);
    g3_page_free(&back);
    return status == G3_OK ? 0 : 1;
}
