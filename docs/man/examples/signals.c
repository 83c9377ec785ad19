/* Reads a DIS, and prints how it would be sent pages: "v17-14400". */
#include <g3fax.h>
#include <stdio.h>

int main(void)
{
    static const uint8_t dis[] = {0xFF, 0x13, 0x80, 0x00, 0x6E, 0xFA,
                                  0x44};
    const g3_wish wish = {.modems = G3_V17, .coding = G3_MMR,
                          .frame = 256};
    g3_signal signal = G3_INIT(g3_signal);
    g3_params params = G3_INIT(g3_params);
    uint32_t reason = 0;
    g3_status status = g3_signal_read(dis, sizeof dis, &signal);
    if (status == G3_OK && signal.kind != G3_DIS) status = G3_NOTHING;
    if (status == G3_OK)
        status = g3_agree(&signal.dis, &wish, 1728, 1, &params, &reason);
    printf("%s\n", status == G3_OK ? g3_carrier_name(params.dcs.carrier)
                                   : g3_status_text(status));
    return status != G3_OK;
}
