/* pages FILE COUNT: the loop over the pages of a file that bindings/README.md has; .ci/readme_programs.sh links it with this. Ends with 0
 * if the file has so many pages, each with the rows of the first one, and prints the number of rows. */
#include "g3fax.h"
#include <stdio.h>
#include <stdlib.h>
#include <string.h>

g3_status read_pages(uint8_t *octets, size_t length, g3_status (*take)(g3_page *page, const g3_found *found));

static uint64_t pages, rows;

static g3_status take(g3_page *page, const g3_found *found)
{
    g3_size size = G3_INIT(g3_size);
    g3_status status = g3_page_size(page, &size);
    if (status == G3_OK && (size.rows != found->rows || size.width != found->width)) status = G3_BAD_WIDTH;
    pages++, rows += size.rows;
    return status;
}

int main(int argc, char **argv)
{
    static uint8_t octets[1 << 16];
    FILE *file = argc == 3 ? fopen(argv[1], "rb") : NULL;
    if (file == NULL) return 2;
    size_t length = fread(octets, 1, sizeof octets / 2, file);
    fclose(file);
    memcpy(octets + length, octets, length); /* a loop that reads past the end finds more pages there */
    g3_status status = read_pages(octets, length, take);
    printf("%s: %d pages, %d rows\n", g3_status_text(status), (int)pages, (int)rows);
    return status != G3_OK || pages != (uint64_t)atoi(argv[2]);
}
