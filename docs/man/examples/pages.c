/* Codes a page of one row in T.6, and prints "done: 6 octets". */
#include <g3fax.h>
#include <stdio.h>

int main(void)
{
    static const uint8_t row[216] = {0xFF, 0xF0}; /* 1 is black */
    g3_page page = G3_EMPTY;
    g3_octets code = G3_EMPTY;
    uint64_t length = 0;
    g3_status status = g3_page_new(&page, 1728, 0);
    if (status == G3_OK)
        status = g3_page_push_row(&page, row, sizeof row);
    if (status == G3_OK)
        status = g3_page_encode(&page, G3_MMR, G3_MSB_FIRST, &code);
    if (status == G3_OK) status = g3_octets_len(&code, &length);
    printf("%s: %d octets\n", g3_status_text(status), (int)length);
    g3_page_free(&page), g3_octets_free(&code);
    return status != G3_OK;
}
