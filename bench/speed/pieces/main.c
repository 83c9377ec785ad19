/* main zeros|runs|fill|eol|end|comb|comb6|broken page|rows|repair KIB PIECE: reads so many KiB in pieces of PIECE octets. Of a row that
 * doesn't end: only 0 bits in T.6 (zeros); in T.4 runs of no pixels, fill before an EOL, an EOL and fill, or a white row, three EOLs and
 * fill. Of whole rows: combs in T.4 (comb), or in T.6 with a white row after each (comb6). Or repairs a comb in T.4 and lines of a 1
 * bit alone (broken), for which PIECE says nothing. Ends with status 1 where there are other rows than these.
 * main FILE.mh|FILE.mmr page|rows ROWS PIECE: so reads a coded page of 1,728 pixels and this number of rows, the most significant bit first. */
#include <stdint.h>
#include <stdio.h>
#include <stdlib.h>
#include <string.h>

uint64_t pieces_page(const uint8_t *, size_t, uint64_t, uint32_t);
uint64_t pieces_rows(const uint8_t *, size_t, uint64_t, uint32_t);
uint64_t pieces_repaired(const uint8_t *, size_t);

static uint8_t octets[1 << 22];

static const char eol[] = "000000000001", white[] = "00110101", black[] = "0000110111", white_1728[] = "010011011";
static const char white_1[] = "000111", black_1[] = "010", horizontal[] = "001", pass[] = "0001";

static size_t put(size_t bit, const char *word)
{
    for (; *word; word++, bit++)
        if (*word == '1') octets[bit / 8] |= 128 >> bit % 8;
    return bit;
}

/* An EOL, and runs of 0 pixels, white and black in turn. */
static void put_runs(size_t size)
{
    size_t bit = put(0, eol);
    while (bit + sizeof white + sizeof black < 8 * size) bit = put(put(bit, white), black);
}

/* An EOL, a white row, and three EOLs. */
static void put_end(void)
{
    size_t bit = put(put(put(0, eol), white_1728), white);
    for (int each = 0; each < 3; each++) bit = put(bit, eol);
}

/* A row of white and black pixels in turn, after so much. */
static size_t put_comb(size_t bit, const char *before)
{
    for (int pair = 0; pair < 864; pair++) bit = put(put(put(bit, before), white_1), black_1);
    return bit;
}

/* Combs in T.4, as many as there is room for, and how many these are. */
static uint64_t put_combs(size_t size)
{
    uint64_t rows = 0;
    for (size_t bit = 0; bit + 12 + 9 * 864 < 8 * size; rows++) bit = put_comb(put(bit, eol), "");
    return rows;
}

/* Combs in T.6 and a white row after each. */
static uint64_t put_combs_6(size_t size)
{
    uint64_t rows = 0;
    for (size_t bit = 0; bit + 16 * 864 < 8 * size; rows += 2) {
        bit = put_comb(bit, horizontal);
        for (int pair = 0; pair < 864; pair++) bit = put(bit, pass);
    }
    return rows;
}

/* A comb in T.4, and lines of a 1 bit and fill. */
static uint64_t put_broken(size_t size)
{
    uint64_t rows = 1;
    for (size_t bit = put_comb(put(0, eol), ""); bit + 64 < 8 * size; rows++) bit = put(put(bit, eol), "1000000000000000");
    return rows;
}

__attribute__((noinline)) static uint64_t counted(const char *reader, size_t size, uint64_t piece, uint32_t coding)
{
    if (!strcmp(reader, "repair")) return pieces_repaired(octets, size);
    return !strcmp(reader, "rows") ? pieces_rows(octets, size, piece, coding) : pieces_page(octets, size, piece, coding);
}

/* Reads a coded page, and ends with status 1 where it has other rows. */
static int try_file(char **words)
{
    FILE *file = fopen(words[1], "rb");
    if (!file) return 2;
    size_t size = fread(octets, 1, sizeof octets, file);
    fclose(file);
    uint64_t rows = (uint64_t)atoi(words[3]);
    return counted(words[2], size, (uint64_t)atoi(words[4]), strstr(words[1], ".mmr") ? 2 : 1) != rows + 1;
}

int main(int count, char **words)
{
    if (count != 5) return 2;
    if (strchr(words[1], '.')) return try_file(words);
    size_t size = 1024 * (size_t)atoi(words[3]);
    if (size > sizeof octets) return 2;
    const char *kind = words[1];
    int is_t6 = !strcmp(kind, "zeros") || !strcmp(kind, "comb6");
    uint64_t rows = 0;
    if (!strcmp(kind, "runs")) put_runs(size);
    if (!strcmp(kind, "end")) put_end(), rows = 1;
    if (!strcmp(kind, "eol")) octets[1] = 16;
    if (!strcmp(kind, "comb")) rows = put_combs(size);
    if (!strcmp(kind, "comb6")) rows = put_combs_6(size);
    if (!strcmp(kind, "broken")) rows = put_broken(size);
    return counted(words[2], size, (uint64_t)atoi(words[4]), is_t6 ? 2 : 1) != rows + 1;
}
