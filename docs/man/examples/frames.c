/* Writes a frame, finds it in its bits, and prints "FF 13 8C". */
#include <g3fax.h>
#include <stdio.h>

int main(void)
{
    static const uint8_t mcf[] = {0xFF, 0x13, 0x8C};
    g3_octets line = G3_EMPTY;
    g3_deframer deframer = G3_EMPTY;
    const uint8_t *data = NULL;
    uint8_t content[300];
    uint64_t bits = 0, length = 0, count = 0;
    g3_status status = g3_frame_write(mcf, sizeof mcf, &line, &bits);
    if (status == G3_OK) status = g3_octets_data(&line, &data, &length);
    if (status == G3_OK) status = g3_deframer_new(&deframer);
    if (status == G3_OK)
        status = g3_deframer_feed(&deframer, data, length);
    while (status == G3_OK) {
        status = g3_deframer_next(&deframer, content, sizeof content,
                                  &count);
        for (uint64_t at = 0; status == G3_OK && at < count; at++)
            printf(at + 1 < count ? "%02X " : "%02X\n", content[at]);
    }
    g3_octets_free(&line), g3_deframer_free(&deframer);
    return status != G3_NOTHING;
}
