/* The names of frames, for what is told of a call. */
#ifndef NAMES_H
#define NAMES_H
#include <stdint.h>

/* Whether a content begins as a frame of T.30 does: with the address, the control field of a last frame or another, and a facsimile control
 * field (T.30, 5.3.4 to 5.3.6). */
static inline int is_frame(const uint8_t *content, uint64_t length)
{
    return length >= 3 && content[0] == 0xff && (content[1] == 0x03 || content[1] == 0x13);
}

/* The name of the frame with this facsimile control field, the third octet of its content, whose first bit comes first (T.30, 5.3.6.1, and
 * annexes A, C, F and H). Of most the first bit says which side has sent it; DIS, DTC and those beside them are without one. */
static inline const char *frame_name(uint8_t control)
{
    static const struct { uint8_t control; const char *name; } NAMES[] = {
        {0x81, "DTC"}, {0x41, "CIG"}, {0x21, "NSC"}, {0xc1, "PWD"}, {0xa1, "SEP"}, {0x61, "PSA"}, {0xe1, "CIA"}, {0x11, "ISP"},
        {0x80, "DIS"}, {0x40, "CSI"}, {0x20, "NSF"}, {0x24, "CSA"}, {0x82, "DCS"}, {0x42, "TSI"}, {0x22, "NSS"}, {0xc2, "SUB"},
        {0xa2, "SID"}, {0x62, "TSA"}, {0xe2, "IRA"}, {0x84, "CFR"}, {0x44, "FTT"}, {0x8e, "EOM"}, {0x4e, "MPS"}, {0x2e, "EOP"},
        {0x1e, "EOS"}, {0x9e, "PRI-EOM"}, {0x5e, "PRI-MPS"}, {0x3e, "PRI-EOP"}, {0x8c, "MCF"}, {0xcc, "RTP"}, {0x4c, "RTN"},
        {0xac, "PIP"}, {0x2c, "PIN"}, {0x6c, "PID"}, {0xfc, "FDM"}, {0xfa, "DCN"}, {0x1a, "CRP"}, {0xca, "FNV"}, {0xea, "TNR"},
        {0x6a, "TR"}, {0xbe, "PPS"}, {0xbc, "PPR"}, {0xec, "RNR"}, {0x6e, "RR"}, {0x12, "CTC"}, {0xc4, "CTR"}, {0xce, "EOR"},
        {0x1c, "ERR"}, {0xa0, "DES"}, {0x93, "DEC"}, {0x53, "DER"}, {0x9a, "DNK"}, {0x4a, "RK"}, {0x4b, "TK"}, {0x06, "FCD"}, {0x86, "RCP"}};
    enum { COUNT = sizeof NAMES / sizeof NAMES[0] };
    for (unsigned i = 0; i < COUNT; i++) {
        if (NAMES[i].control == control) return NAMES[i].name;
    }
    for (unsigned i = 0; i < COUNT; i++) {
        if (NAMES[i].control == (control & 0xfe)) return NAMES[i].name;
    }
    return "frame";
}
#endif
