/* What wrong use of signals, and stations that don't agree, answer. Prints nothing and ends with 0 where each status is the right one. */
#include "statuses.h"

/* Writes a signal, which is refused by this status: the buffer and the count stay. */
static void refuses(g3_status wanted, const g3_signal *signal, uint32_t side)
{
    uint64_t n = 7;
    octets[0] = 9;
    IS(wanted, g3_signal_write(signal, side, 1, octets, sizeof octets, &n));
    IS(1, n == 7 && octets[0] == 9);
}

static void signals(void)
{
    static const uint8_t address[] = {0xFE, 0x13, 0x80}, control[] = {0xFF, 0x12, 0x80}, few[] = {0xFF, 0x13, 0x80, 0, 0};
    static const uint8_t mcf[] = {0xFF, 0x13, 0x8C, 1, 2, 3}, cut[] = {0xFF, 0x13}, wrong_pps[] = {0xFF, 0x13, 0xBF, 1, 0, 0, 0};
    static const uint8_t fcd[] = {0xFF, 0x03, 0x06, 200, 1, 2, 3};
    g3_signal s = G3_INIT(g3_signal), fresh = G3_INIT(g3_signal);
    uint64_t n = 0;
    s.number = 5;
    IS(G3_BAD_ADDRESS, g3_signal_read(address, 3, &s));
    IS(G3_BAD_CONTROL, g3_signal_read(control, 3, &s));
    IS(G3_SHORT_FIELD, g3_signal_read(few, 5, &s));
    IS(G3_SHORT_FIELD, g3_signal_read(cut, 2, &s));
    IS(G3_SHORT_FIELD, g3_signal_read(NULL, 0, &s));
    IS(G3_NO_ADDRESS, g3_signal_read(NULL, 3, &s));
    IS(G3_NO_ADDRESS, g3_signal_read(mcf, 3, NULL));
    IS(1, s.number == 5 && s.kind == 0); /* it is as it was */
    SIZES(s, g3_signal_read(mcf, 6, &s));
    SIZES(s, g3_signal_write(&s, G3_CALLER, 0, octets, sizeof octets, &n));
    SPARES(s.spare, g3_signal_write(&s, G3_CALLER, 0, octets, sizeof octets, &n));
    SPARES(s.dis.spare, g3_signal_write(&s, G3_CALLER, 0, octets, sizeof octets, &n));
    SPARES(s.dcs.spare, g3_signal_write(&s, G3_CALLER, 0, octets, sizeof octets, &n));
    SPARES(s.pps.spare, g3_signal_write(&s, G3_CALLER, 0, octets, sizeof octets, &n));
    IS(G3_OK, g3_signal_read(mcf, 6, &s)); /* what comes after its fields is ignored */
    IS(1, s.kind == G3_MCF && s.number == 0 && s.length == 0);
    IS(G3_OK, g3_signal_read(wrong_pps, 7, &s));
    IS(1, s.kind == G3_OTHER && s.control == 0xBF);
    refuses(G3_BAD_CHOICE, &s, G3_CALLER);
    memset(octets, 0, 301);
    memcpy(octets, fcd, 3);
    IS(G3_NO_ROOM, g3_signal_read(octets, 301, &s)); /* 297 octets of data */
    IS(G3_OK, g3_signal_read(octets, 300, &s));
    IS(296, (g3_status)s.length);
    refuses(G3_BAD_LENGTH, &s, G3_CALLER); /* an FCD has at most 256 */
    s.length = 0;
    refuses(G3_BAD_LENGTH, &s, G3_CALLER);
    IS(G3_OK, g3_signal_read(fcd, sizeof fcd, &s));
    IS(1, s.kind == G3_FCD && s.number == 200 && s.length == 3 && s.octets[0] == 1 && s.octets[2] == 3);
    refuses(G3_BAD_CHOICE, &s, 0);
    refuses(G3_BAD_CHOICE, &s, 3);
    IS(G3_NO_ROOM, g3_signal_write(&s, G3_CALLER, 0, octets, 6, &n));
    IS(7, (g3_status)n);
    IS(G3_OK, g3_signal_write(&s, G3_CALLER, 0, octets, 7, &n));
    IS(0, (g3_status)memcmp(octets, fcd, 7));
    IS(G3_NO_ADDRESS, g3_signal_write(NULL, G3_CALLER, 0, octets, 7, &n));
    IS(G3_NO_ADDRESS, g3_signal_write(&s, G3_CALLER, 0, NULL, 7, &n));
    IS(G3_NO_ADDRESS, g3_signal_write(&s, G3_CALLER, 0, octets, 7, NULL));
    s.number = 256;
    refuses(G3_BAD_CHOICE, &s, G3_CALLER);
    s = fresh;
    for (uint32_t kind = 0; kind <= 20; kind++) {
        s.kind = kind; /* these say something, and 0 is no choice of it */
        if (kind == 0 || kind == G3_DIS || kind == G3_DCS || kind == G3_PPS || kind >= G3_OTHER) refuses(G3_BAD_CHOICE, &s, G3_ANSWERER);
        else if (kind == G3_FCD || kind == G3_PPR) refuses(G3_BAD_LENGTH, &s, G3_ANSWERER);
        else IS(G3_OK, g3_signal_write(&s, G3_ANSWERER, 1, octets, 3, &n));
    }
    s.kind = G3_PPR, s.length = 31;
    refuses(G3_BAD_LENGTH, &s, G3_ANSWERER);
}

static void agreement(void)
{
    g3_dis all = {1, G3_V17, 1, 2432, 1, 1}, d = all;
    g3_wish wish = {G3_V17, G3_MMR, 256}, old = {G3_V27TER, G3_MMR, 64}, odd = {4, G3_MMR, 256};
    g3_params p = G3_INIT(g3_params);
    uint32_t why = 9;
    SIZES(p, g3_agree(&all, &wish, 1728, 1, &p, &why));
    SPARES(d.spare, g3_agree(&d, &wish, 1727, 1, &p, &why));
    SPARES(wish.spare, g3_agree(&d, &wish, 1727, 1, &p, &why));
    IS(G3_OK, g3_agree(&all, &wish, 1728, 1, &p, &why));
    IS(1, p.dcs.carrier == G3_V17_14400 && p.dcs.fine == 1 && p.dcs.width == 1728 && p.dcs.coding == G3_MMR && p.dcs.frame == 256 && why == 9);
    IS(G3_OK, g3_agree(&all, &old, 2432, 0, &p, &why));
    IS(1, p.dcs.carrier == G3_V27TER_4800 && p.dcs.fine == 0 && p.dcs.width == 2432 && p.dcs.coding == G3_MMR && p.dcs.frame == 64);
    d.t6 = 0, d.modems = G3_V27TER_2400_ALONE;
    IS(G3_OK, g3_agree(&d, &wish, 1728, 0, &p, &why));
    IS(1, p.dcs.carrier == G3_V27TER_2400 && p.dcs.coding == G3_MH && why == 9);
    d = all, d.receiver = d.ecm = d.fine = 0, d.widest = 1728, d.modems = G3_V29_ALONE;
    IS(G3_NOT_COMPATIBLE, g3_agree(&d, &old, 2432, 1, &p, &why));
    IS(G3_NO_RECEIVER, why);
    d.receiver = 1;
    IS(G3_NOT_COMPATIBLE, g3_agree(&d, &old, 2432, 1, &p, &why));
    IS(G3_NO_ECM, why);
    d.ecm = 1;
    IS(G3_NOT_COMPATIBLE, g3_agree(&d, &old, 2432, 1, &p, &why));
    IS(G3_TOO_WIDE, why);
    d.widest = 2432;
    IS(G3_NOT_COMPATIBLE, g3_agree(&d, &old, 2432, 1, &p, &why));
    IS(G3_NO_FINE, why);
    d.fine = 1;
    IS(G3_NOT_COMPATIBLE, g3_agree(&d, &old, 2432, 1, &p, &why));
    IS(G3_NO_COMMON_SPEED, why);
    IS(1, p.dcs.carrier == G3_V27TER_2400); /* it is as it was */
    IS(G3_NOT_CALLABLE, g3_agree(&all, &wish, 1727, 1, &p, &why));
    IS(G3_BAD_CHOICE, g3_agree(&all, &odd, 1728, 1, &p, &why));
    d.modems = 6;
    IS(G3_BAD_CHOICE, g3_agree(&d, &wish, 1728, 1, &p, &why));
    IS(G3_NO_ADDRESS, g3_agree(NULL, &wish, 1728, 1, &p, &why));
    IS(G3_NO_ADDRESS, g3_agree(&all, NULL, 1728, 1, &p, &why));
    IS(G3_NO_ADDRESS, g3_agree(&all, &wish, 1728, 1, NULL, &why));
    IS(G3_NO_ADDRESS, g3_agree(&all, &wish, 1728, 1, &p, NULL));
}

int main(void)
{
    signals();
    agreement();
    return bad;
}
