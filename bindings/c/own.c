/* own: who owns what. Codes a page, and sends the same page to a document; prints the octets of its code. */
#include "g3fax.h"
#include <stdio.h>

int main(void)
{
    const uint8_t row[216] = {0x0F}; /* it stays the caller's: the library copies it */
    g3_page page = G3_EMPTY;         /* each handle begins empty, is filled by `out` of one function, and is freed by the caller */
    g3_octets code = G3_EMPTY;
    g3_document document = G3_EMPTY;
    const uint8_t *octets = NULL;    /* the code's own octets, until it is freed: nothing is copied */
    uint64_t length = 0, pages = 0;
    g3_status status = g3_page_new(&page, 1728, 0);
    if (status == G3_OK) status = g3_page_push_row(&page, row, sizeof row);
    if (status == G3_OK) status = g3_page_encode(&page, G3_MMR, G3_MSB_FIRST, &code);
    if (status == G3_OK) status = g3_octets_data(&code, &octets, &length);
    if (status == G3_OK) status = g3_document_new(&document);
    if (status == G3_OK) status = g3_document_push(&document, &page); /* the page moves: its handle is empty, and can be filled again */
    if (status == G3_OK) status = g3_document_pages(&document, &pages);
    if (status == G3_OK) status = g3_page_new(&page, 1728, 0);
    if (status == G3_OK) printf("%d octets, the first is %02X, %d page\n", (int)length, octets[0], (int)pages);
    else fprintf(stderr, "own: %s\n", g3_status_text(status));
    g3_page_free(&page), g3_octets_free(&code), g3_document_free(&document); /* wherever it ended: an empty handle is nothing to free */
    return status != G3_OK;
}
