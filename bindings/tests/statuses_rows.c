/* What wrong use of coders and readers of rows answers. Prints nothing and ends with 0 where each status is the right one. */
#include "statuses.h"

static void rows(void)
{
    g3_row_coder c = G3_EMPTY;
    g3_row_reader r = G3_EMPTY;
    g3_octets code = G3_EMPTY, none = G3_EMPTY;
    uint64_t n = 0, place = 0;
    uint8_t coded[8];
    g3_code odd = {3, G3_MSB_FIRST, 9, 0}, other = {G3_MH, 2, 9, 0}, wide = {G3_MMR, G3_MSB_FIRST, 2433, 0};
    g3_code mmr = {G3_MMR, G3_MSB_FIRST, 9, 0};
    g3_row_coder_free(&c); g3_row_coder_free(NULL); g3_row_reader_free(&r); g3_row_reader_free(NULL);
    IS(G3_EMPTY_HANDLE, g3_row_coder_push_row(&c, octets, 2));
    IS(G3_EMPTY_HANDLE, g3_row_coder_take(&c, &code));
    IS(G3_EMPTY_HANDLE, g3_row_coder_finish(NULL, &code));
    SPARES(odd.spare, g3_row_coder_new(&c, &odd));
    IS(G3_BAD_CHOICE, g3_row_coder_new(&c, &odd));
    IS(G3_BAD_CHOICE, g3_row_coder_new(&c, &other));
    IS(G3_BAD_WIDTH, g3_row_coder_new(&c, &wide));
    IS(G3_NO_ADDRESS, g3_row_coder_new(&c, NULL));
    IS(G3_OK, g3_row_coder_new(&c, &mmr));
    IS(G3_FULL_HANDLE, g3_row_coder_new(&c, &mmr));
    IS(G3_NO_ROWS, g3_row_coder_finish(&c, &code));
    IS(G3_BAD_LENGTH, g3_row_coder_push_row(&c, octets, 1));
    IS(G3_OK, g3_row_coder_push_row(&c, octets, 2));
    IS(G3_OTHER_HANDLE, g3_row_reader_next((g3_row_reader *)&c, octets, 400, &n, &place));
    IS(G3_OK, g3_row_coder_take(&c, &none));
    IS(G3_FULL_HANDLE, g3_row_coder_take(&c, &none));
    IS(G3_FULL_HANDLE, g3_row_coder_finish(&c, &none));
    IS(G3_OK, g3_row_coder_finish(&c, &code));
    IS(G3_EMPTY_HANDLE, g3_row_coder_finish(&c, &code)); /* the coder has ended */
    IS(G3_OK, g3_octets_copy(&code, coded, sizeof coded, &n));
    IS(4, (g3_status)n); /* a white row has a bit in T.6, and EOFB 24 */

    IS(G3_EMPTY_HANDLE, g3_row_reader_feed(&r, coded, 4, &n));
    SPARES(odd.spare, g3_row_reader_new(&r, &odd));
    IS(G3_BAD_CHOICE, g3_row_reader_new(&r, &odd));
    IS(G3_BAD_CHOICE, g3_row_reader_new(&r, &other));
    IS(G3_BAD_WIDTH, g3_row_reader_new(&r, &wide));
    IS(G3_NO_ADDRESS, g3_row_reader_new(&r, NULL));
    IS(G3_OK, g3_row_reader_new(&r, &mmr));
    IS(G3_FULL_HANDLE, g3_row_reader_new(&r, &mmr));
    IS(G3_OTHER_HANDLE, g3_row_coder_push_row((g3_row_coder *)&r, octets, 2));
    IS(G3_NO_ADDRESS, g3_row_reader_feed(&r, NULL, 1, &n));
    IS(G3_NO_ADDRESS, g3_row_reader_feed(&r, coded, 1, NULL));
    IS(G3_MISSING_EOFB, g3_row_reader_next(&r, octets, 400, &n, &place));
    IS(G3_OK, g3_row_reader_feed(&r, coded, 4, &n));
    IS(4, (g3_status)n);
    IS(G3_NO_ROOM, g3_row_reader_next(&r, octets, 1, &n, &place));
    IS(2, (g3_status)n);
    IS(G3_NO_ADDRESS, g3_row_reader_next(&r, octets, 400, &n, NULL));
    IS(G3_OK, g3_row_reader_next(&r, octets, 2, &n, &place));
    IS(G3_NOTHING, g3_row_reader_next(&r, octets, 2, &n, &place));
    IS(25, (g3_status)place);
    g3_row_reader_free(&r); g3_row_reader_free(&r); g3_octets_free(&code); g3_octets_free(&none);
    IS(G3_EMPTY_HANDLE, g3_row_reader_next(&r, octets, 400, &n, &place));
}

int main(void)
{
    rows();
    return bad;
}
