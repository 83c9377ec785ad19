/* main READER PIECE: reads what standard input has, each 4 octets of a length, the lowest first, and so many octets, by a reader of the
 * library for C, in pieces of PIECE octets where it takes such. For each writes a line: the octets that came out, and the last status.
 * counted() is what callgrind counts. */
#include "g3fax.h"
#include <stdio.h>
#include <stdlib.h>
#include <string.h>

enum { MOST = 1 << 22 };
static uint8_t octets[MOST], buffer[512];
static size_t length, piece;
static uint64_t out;

static g3_code code_of(uint32_t coding)
{
    return (g3_code){.coding = coding, .order = G3_MSB_FIRST, .width = 1728, .fine = 1};
}

/* The octets of a page's rows, which is freed. */
static void give(g3_page *page)
{
    g3_size size = G3_INIT(g3_size);
    if (g3_page_size(page, &size) == G3_OK) out += (uint64_t)size.rows * ((size.width + 7) / 8);
    g3_page_free(page);
}

static g3_status decode(uint32_t coding)
{
    g3_code code = code_of(coding);
    g3_page page = G3_EMPTY;
    uint64_t place = 0;
    g3_status status = g3_page_decode(octets, length, &code, &page, &place);
    give(&page);
    return status;
}
static g3_status decode_mh(void) { return decode(G3_MH); }
static g3_status decode_mmr(void) { return decode(G3_MMR); }

static g3_status salvage(uint32_t coding)
{
    g3_code code = code_of(coding);
    g3_page page = G3_EMPTY;
    uint64_t place = 0;
    uint32_t fault = 0;
    g3_status status = g3_page_salvage(octets, length, &code, &page, &fault, &place);
    give(&page);
    return status == G3_OK ? fault : status;
}
static g3_status salvage_mh(void) { return salvage(G3_MH); }
static g3_status salvage_mmr(void) { return salvage(G3_MMR); }

static g3_status repair_mh(void)
{
    g3_code code = code_of(G3_MH);
    g3_page page = G3_EMPTY;
    uint64_t count = 0;
    g3_status status = g3_page_repair(octets, length, &code, &page, &count);
    give(&page);
    return status;
}

static g3_status rows(uint32_t coding)
{
    g3_row_reader reader = G3_EMPTY;
    g3_code code = code_of(coding);
    g3_status status = g3_row_reader_new(&reader, &code);
    uint64_t taken = 0, count = 0, place = 0;
    for (size_t at = 0; at < length; at += piece) {
        status = g3_row_reader_feed(&reader, octets + at, length - at < piece ? length - at : piece, &taken);
        if (status != G3_OK || taken == 0) break;
        while ((status = g3_row_reader_next(&reader, buffer, sizeof buffer, &count, &place)) == G3_OK) out += count;
    }
    g3_row_reader_free(&reader);
    return status;
}
static g3_status rows_mh(void) { return rows(G3_MH); }
static g3_status rows_mmr(void) { return rows(G3_MMR); }

static g3_status deframer(void)
{
    g3_deframer deframer = G3_EMPTY;
    g3_status status = g3_deframer_new(&deframer);
    uint64_t count = 0;
    for (size_t at = 0; at < length && status != G3_NO_MEMORY; at += piece) {
        status = g3_deframer_feed(&deframer, octets + at, length - at < piece ? length - at : piece);
        while ((status = g3_deframer_next(&deframer, buffer, sizeof buffer, &count)) == G3_OK) {}
    }
    g3_deframer_free(&deframer);
    return status;
}

/* An answerer that hears a caller by V.21; what it says is taken and freed. */
static g3_status answerer(void)
{
    g3_terminal terminal = G3_EMPTY;
    g3_caps caps = {.modems = G3_V17, .t6 = 1, .fine = 1, .widest = 2432, .limit = 1};
    g3_status status = g3_answerer_new(&terminal, &caps);
    for (size_t at = 0; at < length && status == G3_OK; at += piece) {
        g3_octets said = G3_EMPTY;
        g3_burst burst = G3_INIT(g3_burst);
        if (g3_terminal_next_burst(&terminal, &said, &burst) == G3_OK) g3_octets_free(&said);
        status = g3_terminal_hear(&terminal, octets + at, length - at < piece ? length - at : piece);
    }
    g3_terminal_free(&terminal);
    return status;
}

static g3_status identify(void)
{
    g3_found found = G3_INIT(g3_found);
    return g3_identify(octets, length, &found);
}

static g3_status pbm(void)
{
    g3_page page = G3_EMPTY;
    uint64_t count = 0;
    g3_status status = g3_page_read_pbm(octets, length, 1, &page, &count);
    give(&page);
    return status;
}

/* Pixels of 0 and 1, packed, and packed rows as pixels; what is left of a row is left out. */
static uint8_t packed[MOST];
static g3_status pack(void)
{
    return g3_pixels_pack(octets, length / 1728 * 1728, 1728, packed, sizeof packed, &out);
}
static g3_status unpack(void)
{
    return g3_pixels_unpack(octets, length / 216 * 216, 1728, packed, sizeof packed, &out);
}

static g3_status signals(void)
{
    g3_signal signal = G3_INIT(g3_signal);
    return g3_signal_read(octets, length, &signal);
}

static const struct { const char *name; g3_status (*reads)(void); } readers[] = {
    {"decode-mh", decode_mh}, {"decode-mmr", decode_mmr}, {"salvage-mh", salvage_mh}, {"salvage-mmr", salvage_mmr},
    {"repair-mh", repair_mh}, {"rows-mh", rows_mh}, {"rows-mmr", rows_mmr}, {"deframer", deframer}, {"answerer", answerer},
    {"identify", identify}, {"pbm", pbm}, {"signal", signals}, {"pack", pack}, {"unpack", unpack},
};

__attribute__((noinline)) g3_status counted(g3_status (*reads)(void));
__attribute__((noinline)) g3_status counted(g3_status (*reads)(void)) { return reads(); }

int main(int count, char **words)
{
    g3_status (*reads)(void) = NULL;
    uint8_t head[4];
    for (size_t at = 0; count == 3 && at < sizeof readers / sizeof readers[0]; at++)
        if (strcmp(words[1], readers[at].name) == 0) reads = readers[at].reads;
    if (reads == NULL || (piece = (size_t)atoi(words[2])) == 0) return 2;
    while (fread(head, 1, 4, stdin) == 4) {
        length = head[0] | head[1] << 8 | (size_t)head[2] << 16 | (size_t)head[3] << 24;
        if (length > MOST || fread(octets, 1, length, stdin) != length) return 2;
        out = 0;
        g3_status status = counted(reads);
        printf("%llu %u\n", (unsigned long long)out, status);
        fflush(stdout);
    }
    return 0;
}
