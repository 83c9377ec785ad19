/* A program of two libraries that have the same proved functions below their own: libg3fax, and one with the function g3_other_page, which
 * this file is with OTHER. Ends with 0 if both work. */
#include <stddef.h>
#include <stdint.h>
#ifdef OTHER
typedef struct handle { void *at; } handle;
uint32_t g3_core_page_new(handle *, uint32_t, uint32_t);
void g3_core_free(handle *);

uint32_t g3_other_page(uint32_t width)
{
    handle it = {NULL};
    uint32_t status = g3_core_page_new(&it, width, 0);
    g3_core_free(&it);
    return status;
}
#else
#include "g3fax.h"

uint32_t g3_other_page(uint32_t width);

int main(void)
{
    g3_page page = G3_EMPTY;
    int bad = g3_page_new(&page, 8, 0) != G3_OK || g3_other_page(8) != G3_OK || g3_other_page(0) != G3_BAD_WIDTH;
    g3_page_free(&page);
    return bad;
}
#endif
