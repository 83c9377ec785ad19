/* main PAGE.pbm mh|mmr msb|lsb: codes a page and reads its code, by the crates alone (crates_code, crates_read), through the library for C
 * (library_code, library_read), and through it row by row (library_code_rows, library_read_rows), from packed rows in memory to packed rows
 * in memory. Each is a function of its own, for callgrind. Prints how many octets the code has, and the rows. Ends with status 1 where one
 * of them gives other octets. */
#include "g3fax.h"
#include <stdio.h>
#include <stdlib.h>
#include <string.h>

uint64_t crates_encode(const uint8_t *, size_t, uint32_t, uint32_t, uint32_t, uint8_t *, size_t);
uint64_t crates_decode(const uint8_t *, size_t, uint32_t, uint32_t, uint32_t, uint8_t *, size_t);

static uint8_t rows[1 << 23], code[1 << 23], again[1 << 23];
static uint32_t width, height;
static size_t row, size;
static g3_code form;

static void check(g3_status status)
{
    if (status == G3_OK) return;
    fprintf(stderr, "%s\n", g3_status_text(status));
    exit(1);
}

__attribute__((noinline)) static uint64_t crates_code(uint8_t *out)
{
    return crates_encode(rows, size, width, form.coding, form.order, out, sizeof code);
}

__attribute__((noinline)) static uint64_t crates_read(uint64_t length)
{
    return crates_decode(code, length, width, form.coding, form.order, again, sizeof again);
}

__attribute__((noinline)) static uint64_t library_code(uint8_t *out)
{
    g3_page page = G3_EMPTY;
    g3_octets octets = G3_EMPTY;
    g3_raster raster = {.stride = row, .width = width, .rows = height, .fine = 1};
    uint64_t count = 0;
    check(g3_page_read_raster(rows, size, &raster, &page));
    check(g3_page_encode(&page, form.coding, form.order, &octets));
    check(g3_octets_copy(&octets, out, sizeof code, &count));
    g3_page_free(&page); g3_octets_free(&octets);
    return count;
}

__attribute__((noinline)) static uint64_t library_read(uint64_t length)
{
    g3_page page = G3_EMPTY;
    uint64_t count = 0, place = 0;
    check(g3_page_decode(code, length, &form, &page, &place));
    check(g3_page_write_raster(&page, row, again, sizeof again, &count));
    g3_page_free(&page);
    return count;
}

__attribute__((noinline)) static uint64_t library_code_rows(uint8_t *out)
{
    g3_row_coder coder = G3_EMPTY;
    uint64_t length = 0;
    check(g3_row_coder_new(&coder, &form));
    for (uint32_t y = 0; y <= height; y++) {
        g3_octets octets = G3_EMPTY;
        uint64_t count = 0;
        if (y < height) check(g3_row_coder_push_row(&coder, rows + y * row, row));
        if (y < height && y % 64 != 63) continue; /* the octets of 64 rows are taken at once */
        check(y < height ? g3_row_coder_take(&coder, &octets) : g3_row_coder_finish(&coder, &octets));
        check(g3_octets_copy(&octets, out + length, sizeof code - length, &count));
        g3_octets_free(&octets);
        length += count;
    }
    g3_row_coder_free(&coder);
    return length;
}

__attribute__((noinline)) static uint64_t library_read_rows(uint64_t length)
{
    g3_row_reader reader = G3_EMPTY;
    uint64_t taken = 0, count = 0, place = 0, at = 0;
    g3_status status = G3_OK;
    check(g3_row_reader_new(&reader, &form));
    for (uint64_t fed = 0; fed < length; fed += taken) { /* the octets come 4096 at once */
        check(g3_row_reader_feed(&reader, code + fed, length - fed < 4096 ? length - fed : 4096, &taken));
        while ((status = g3_row_reader_next(&reader, again + at, sizeof again - at, &count, &place)) == G3_OK) at += count;
    }
    g3_row_reader_free(&reader);
    return status == G3_NOTHING ? at : 0;
}

/* Whether rows that were read are those of the page, and makes others of them. */
static int is_read(uint64_t count)
{
    int is = count == size && memcmp(again, rows, size) == 0;
    memset(again, 0x5A, size);
    return is;
}

int main(int argc, char **argv)
{
    FILE *file = argc == 4 ? fopen(argv[1], "rb") : NULL;
    if (file == NULL || fscanf(file, "P4 %u %u", &width, &height) != 2 || fgetc(file) < 0) return 2;
    row = (width + 7) / 8, size = row * height;
    if (size > sizeof rows || fread(rows, 1, size, file) != size) return 2;
    g3_code named = {.coding = strcmp(argv[2], "mh") ? G3_MMR : G3_MH, .order = strcmp(argv[3], "msb") ? G3_LSB_FIRST : G3_MSB_FIRST,
                     .width = width, .fine = 1};
    form = named;
    uint64_t length = crates_code(code);
    if (length == 0 || library_code(again) != length || memcmp(again, code, length) != 0) return 1;
    memset(again, 0x5A, length);
    if (library_code_rows(again) != length || memcmp(again, code, length) != 0) return 1;
    if (!is_read(crates_read(length)) || !is_read(library_read(length)) || !is_read(library_read_rows(length))) return 1;
    printf("%llu %llu\n", (unsigned long long)length, (unsigned long long)size);
    return 0;
}
