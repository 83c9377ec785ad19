/* misuse: one way to each status that README.md names, but for refused memory. Prints nothing and ends with 0 where each comes. */
#include "g3fax.h"
#include <stdio.h>
#include <string.h>

#define IS(want, call) is((want), (call), __LINE__)

static uint8_t octets[2501];
static int bad;

static void is(g3_status want, g3_status got, int line)
{
    if (got == want) return;
    printf("line %d: %u, not %u\n", line, got, want);
    bad = 1;
}

/* Handles, widths, lengths and choices. */
static void handles(void)
{
    g3_page page = G3_EMPTY;
    g3_octets code = G3_EMPTY;
    g3_size size = G3_INIT(g3_size), unsized = {0};
    uint64_t n;
    IS(G3_EMPTY_HANDLE, g3_page_size(&page, &size));
    IS(G3_BAD_WIDTH, g3_page_new(&page, 2433, 1));
    IS(G3_OK, g3_page_new(&page, 1728, 1));
    IS(G3_FULL_HANDLE, g3_page_new(&page, 1728, 1));
    IS(G3_OTHER_HANDLE, g3_deframer_feed((g3_deframer *)&page, octets, 1)); /* a compiler refuses this without the cast */
    IS(G3_NO_ROWS, g3_page_encode(&page, G3_MMR, G3_MSB_FIRST, &code));
    IS(G3_BAD_LENGTH, g3_page_push_row(&page, octets, 215));
    for (uint32_t row = 0; row < 20000; row++) IS(G3_OK, g3_page_push_row(&page, octets, 216));
    IS(G3_TOO_MANY_ROWS, g3_page_push_row(&page, octets, 216));
    IS(G3_NOTHING, g3_page_row(&page, 20000, octets, 216, &n));
    IS(G3_NO_ROOM, g3_page_row(&page, 0, octets, 215, &n));
    IS(216, (g3_status)n); /* so many octets are wanted */
    IS(G3_BAD_CHOICE, g3_page_encode(&page, G3_MMR, 2, &code));
    IS(G3_BAD_SIZE, g3_page_size(&page, &unsized)); /* it doesn't begin with its own size */
    g3_page_free(&page); g3_page_free(&page); g3_page_free(NULL);
    IS(G3_EMPTY_HANDLE, g3_page_size(&page, &size));
}

/* Coded pages whose rows have 8 pixels. */
static const struct { g3_status want; uint32_t coding, length; uint8_t code[3]; } coded[] = {
    {G3_NO_ROWS, G3_MMR, 3, {0x00, 0x10, 0x01}},          /* EOFB alone */
    {G3_BAD_CODE, G3_MMR, 2, {0x01, 0xFF}},               /* seven 0 bits and a 1 begin no mode */
    {G3_TRUNCATED, G3_MMR, 1, {0x20}},                    /* the bits end in the first run of horizontal mode */
    {G3_RUN_TOO_LONG, G3_MH, 3, {0x00, 0x1A, 0x00}},      /* an EOL, and 9 white pixels */
    {G3_BACKWARDS, G3_MMR, 3, {0x2F, 0xE0, 0x80}},        /* VL3, where b1 is two pixels on */
    {G3_PAST_END, G3_MMR, 1, {0x60}},                     /* VR1 at the end of a row */
    {G3_EMPTY_HORIZONTAL, G3_MMR, 3, {0x26, 0xA1, 0xB8}}, /* two runs of 0 pixels */
    {G3_EXTENSION, G3_MMR, 1, {0x02}},
    {G3_MISSING_EOFB, G3_MMR, 1, {0x80}}                  /* a white row, and 0 bits */
};

static void pages(void)
{
    g3_page page = G3_EMPTY;
    g3_code code = {.coding = G3_MMR, .order = G3_MSB_FIRST, .width = 8};
    uint64_t bit;
    for (size_t at = 0; at < sizeof coded / sizeof *coded; at++) {
        code.coding = coded[at].coding;
        IS(coded[at].want, g3_page_decode(coded[at].code, coded[at].length, &code, &page, &bit));
    }
    memset(octets, 0xFF, sizeof octets); /* 20,008 times V0, and each is a row */
    code.coding = G3_MMR;
    IS(G3_TOO_MANY_CODED_ROWS, g3_page_decode(octets, sizeof octets, &code, &page, &bit));
    IS(20000, (g3_status)bit);
    IS(G3_BAD_HEADER, g3_page_read_pbm((const uint8_t *)"P5 8 1\n", 7, 0, &page, &bit));
    IS(G3_SHORT_DATA, g3_page_read_pbm((const uint8_t *)"P4 8 1\n", 7, 0, &page, &bit));
    IS(G3_NO_IMAGE, g3_page_read_pbm(octets, 0, 0, &page, &bit));
}

static void signals(void)
{
    static const uint8_t address[] = {0xFE, 0x13, 0x80}, control[] = {0xFF, 0x12, 0x80};
    g3_signal signal = G3_INIT(g3_signal);
    g3_dis dis = {.modems = G3_V17, .fine = 1, .widest = 2432, .t6 = 1, .ecm = 1}; /* it doesn't receive */
    g3_wish wish = {.modems = G3_V17, .coding = G3_MMR, .frame = 256};
    g3_params params = G3_INIT(g3_params);
    uint32_t reason;
    IS(G3_BAD_ADDRESS, g3_signal_read(address, 3, &signal));
    IS(G3_BAD_CONTROL, g3_signal_read(control, 3, &signal));
    IS(G3_SHORT_FIELD, g3_signal_read(address, 0, &signal));
    IS(G3_NOT_CALLABLE, g3_agree(&dis, &wish, 1727, 1, &params, &reason));
    IS(G3_NOT_COMPATIBLE, g3_agree(&dis, &wish, 1728, 1, &params, &reason));
    IS(G3_NO_RECEIVER, reason);
}

int main(void)
{
    handles();
    pages();
    signals();
    return bad;
}
