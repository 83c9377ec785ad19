/* Reads a page octet by octet, and prints "8 rows, 32 bits". */
#include <g3fax.h>
#include <stdio.h>

int main(void)
{
    static const uint8_t code[] = {0xFF, 0x00, 0x10, 0x01};
    const g3_code form = {.coding = G3_MMR, .order = G3_MSB_FIRST,
                          .width = 1728};
    g3_row_reader reader = G3_EMPTY;
    uint8_t row[216];
    uint64_t taken = 0, count = 0, place = 0;
    int rows = 0;
    g3_status status = g3_row_reader_new(&reader, &form);
    for (int at = 0; at < 4 && status != G3_NO_MEMORY; at++) {
        status = g3_row_reader_feed(&reader, code + at, 1, &taken);
        while (status == G3_OK) {
            status = g3_row_reader_next(&reader, row, sizeof row, &count,
                                        &place);
            if (status == G3_OK) rows++;
        }
    }
    if (status == G3_NOTHING) /* the page's end */
        printf("%d rows, %d bits\n", rows, (int)place);
    else
        printf("%s, at bit %d\n", g3_status_text(status), (int)place);
    g3_row_reader_free(&reader);
    return status != G3_NOTHING;
}
