/* What carriers of g3fax.h have in common for those who use them. */
#ifndef CARRIERS_H
#define CARRIERS_H
#include "g3fax.h"

/* The bits a second of a carrier; 0 is as V.21. */
static inline uint32_t rate_of(uint32_t carrier)
{
    static const uint32_t RATES[] = {
        [0] = 300, [G3_V21] = 300, [G3_V27TER_2400] = 2400, [G3_V27TER_4800] = 4800, [G3_V29_7200] = 7200, [G3_V29_9600] = 9600,
        [G3_V17_7200] = 7200, [G3_V17_9600] = 9600, [G3_V17_12000] = 12000, [G3_V17_14400] = 14400};
    return RATES[carrier];
}

/* The name of a carrier, as faxtool has it; NULL: it is none. */
static inline const char *carrier_name(uint32_t carrier)
{
    static const char *const NAMES[] = {
        [G3_V21] = "v21", [G3_V27TER_2400] = "v27ter-2400", [G3_V27TER_4800] = "v27ter-4800", [G3_V29_7200] = "v29-7200",
        [G3_V29_9600] = "v29-9600", [G3_V17_7200] = "v17-7200", [G3_V17_9600] = "v17-9600", [G3_V17_12000] = "v17-12000",
        [G3_V17_14400] = "v17-14400"};
    return carrier < sizeof NAMES / sizeof NAMES[0] ? NAMES[carrier] : NULL;
}

/* Appends bits first .. end - 1 of octets after `at` bits of others; returns how many there are. 0 bits fill the last octet. */
static inline uint64_t append_bits(uint8_t *to, uint64_t at, const uint8_t *from, uint64_t first, uint64_t end)
{
    for (uint64_t i = first; i < end; i++, at++) {
        if (at % 8 == 0) to[at / 8] = 0;
        to[at / 8] |= (uint8_t)((from[i / 8] >> (i % 8) & 1) << (at % 8));
    }
    return at;
}
#endif
