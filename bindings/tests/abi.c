/* What a program that was built with version 0.1 depends on: the size and last member of each struct, the numbers, and the names of
 * numbers. If one of these is to change, the library gets another soname. */
#include "g3fax.h"
#include <stdio.h>
#include <string.h>

#define IS(type, size, member, place) \
    _Static_assert(sizeof(type) == (size) && __builtin_offsetof(type, member) == (place), #type " has changed")
IS(g3_page, 8, at, 0);
IS(g3_octets, 8, at, 0);
IS(g3_deframer, 8, at, 0);
IS(g3_document, 8, at, 0);
IS(g3_terminal, 8, at, 0);
IS(g3_row_coder, 8, at, 0);
IS(g3_row_reader, 8, at, 0);
IS(g3_size, 24, spare, 20);
IS(g3_code, 32, spare, 16);
IS(g3_raster, 32, spare, 20);
IS(g3_counts, 56, damaged, 48);
IS(g3_caps, 32, spare, 20);
IS(g3_wish, 32, spare, 12);
IS(g3_burst, 32, spare, 28);
IS(g3_state, 48, spare, 44);
IS(g3_progress, 168, figures, 88);
IS(g3_figures, 80, peer, 60);
IS(g3_dis, 32, spare, 24);
IS(g3_dcs, 32, spare, 20);
IS(g3_params, 40, dcs, 8);
IS(g3_block, 32, spare, 16);
IS(g3_signal, 424, octets, 128);
IS(g3_found, 96, format, 48);
_Static_assert(G3_TOO_MANY_CODED_ROWS == 18 && G3_SHORT_FIELD == 22 && G3_NOTHING == 106 && G3_BAD_SIZE == 107 && G3_FRAME_LOST == 108 && G3_NEWER_STRUCT == 109 && G3_NO_ADDRESS == 110, "a status has changed");
_Static_assert(G3_MMR == 2 && G3_LSB_FIRST == 1 && G3_V17 == 3 && G3_T5 == 5 && G3_HEARS_PAGES == 3 && G3_HEARS_V21_THEN_PAGES == 4, "a choice has changed");
_Static_assert(G3_V17_14400 == 9 && G3_END_LINE_LOST == 12 && G3_OTHER == 13 && G3_EOP == 4, "a choice has changed");
_Static_assert(G3_NO_COMMON_SPEED == 5 && G3_V27TER_2400_ALONE == 5 && G3_ANSWERER == 2 && G3_REFUSED_NOT_OFFERED == 2, "a choice has changed");
_Static_assert(G3_FOUND_PAGE == 1 && G3_FOUND_FORMAT == 2 && G3_FOUND_SEVERAL == 3 && G3_FOUND_NOTHING == 4 && G3_FOUND_BEGUN == 5, "a choice has changed");

static int bad;

static void is(int right, const char *what)
{
    if (!right) printf("abi: %s\n", what), bad = 1;
}

int main(void)
{
    static const char *const names[] = {"none", "v21", "v27ter-2400", "v27ter-4800", "v29-7200", "v29-9600", "v17-7200", "v17-9600",
        "v17-12000", "v17-14400", "none"};
    static const uint32_t rates[] = {0, 300, 2400, 4800, 7200, 9600, 7200, 9600, 12000, 14400, 0};
    g3_page page = G3_EMPTY, other = {NULL};
    for (uint32_t at = 0; at <= 10; at++)
        is(strcmp(g3_carrier_name(at), names[at]) == 0 && g3_carrier_rate(at) == rates[at], "a carrier has another name or rate");
    is(strcmp(g3_carrier_name(UINT32_MAX), "none") == 0 && g3_carrier_rate(UINT32_MAX) == 0, "a carrier that is none");
    for (uint32_t at = 0; at <= G3_END_LINE_LOST; at++)
        for (uint32_t before = 0; before < at; before++) is(strcmp(g3_end_text(at), g3_end_text(before)) != 0, "two ends have one text");
    is(strcmp(g3_end_text(0), "the call goes on") == 0, "no end");
    is(strcmp(g3_end_text(G3_END_LINE_LOST + 1), "no such end") == 0 && g3_end_text(UINT32_MAX) != NULL, "an end that is none");
    is(g3_version_number() == G3_VERSION_NUMBER, "the header and the library have two versions");
    is(g3_page_new(&page, 8, 0) == G3_OK && page.at != NULL, "a page");
    other = page;
    page = G3_EMPTY_OF(g3_page);
    is(page.at == NULL && other.at != NULL, "a handle that was made empty");
    g3_page_free(&other);
    return bad;
}
