/* signals LINE.bits: what the contents of the good frames of a line's bits say, a number, the octets and the signal a line. Each signal
 * but another one is written again, and read as the same. */
#include "g3fax.h"
#include "files.h"
#include <string.h>

static const char *const names[] = {"", "DIS", "DCS", "CFR", "FTT", "FCD", "RCP", "PPS", "PPR", "MCF", "RNR", "RR", "DCN", "other"};
static const char *const modems[] = {"", "v27", "v27v29", "v17", "v29", "fallback"};
static const char *const carriers[] = {"",         "",         "v27-2400", "v27-4800",  "v29-7200",
                                       "v29-9600", "v17-7200", "v17-9600", "v17-12000", "v17-14400"};
static const char *const ends[] = {"", "NULL", "MPS", "EOM", "EOP"};

static unsigned asked(const uint8_t *bits)
{
    unsigned count = 0;
    for (unsigned frame = 0; frame < 256; frame++) count += bits[frame / 8] >> frame % 8 & 1;
    return count;
}

/* Whether the signal is written by either station, and read as the same. */
static int comes_back(const g3_signal *signal)
{
    static uint8_t content[300];
    for (uint32_t side = G3_CALLER; side <= G3_ANSWERER; side++) {
        g3_signal again = G3_INIT(g3_signal);
        uint64_t count = 0;
        if (g3_signal_write(signal, side, 1, content, sizeof content, &count) != G3_OK) return 0;
        if (g3_signal_read(content, count, &again) != G3_OK || memcmp(signal, &again, sizeof again) != 0) return 0;
    }
    return 1;
}

static void print(const uint8_t *content, size_t length)
{
    g3_signal signal = G3_INIT(g3_signal);
    g3_status status = g3_signal_read(content, length, &signal);
    if (status != G3_OK) {
        printf(" fault %u\n", status);
        return;
    }
    printf(" %s", names[signal.kind]);
    switch (signal.kind) {
    case G3_DIS:
        printf(" %sreceiver %s %s %u %s %secm", signal.dis.receiver ? "" : "no", modems[signal.dis.modems],
               signal.dis.fine ? "fine" : "standard", signal.dis.widest, signal.dis.t6 ? "t6" : "mh", signal.dis.ecm ? "" : "no");
        break;
    case G3_DCS:
        printf(" %s %s %u %s %u", carriers[signal.dcs.carrier], signal.dcs.fine ? "fine" : "standard", signal.dcs.width,
               signal.dcs.coding == G3_MMR ? "t6" : "mh", signal.dcs.frame);
        break;
    case G3_FCD: printf(" %u %llu", signal.number, (unsigned long long)signal.length); break;
    case G3_PPS:
        printf(" %s page %u block %u last %u", ends[signal.pps.ends], signal.pps.page, signal.pps.block, signal.pps.last);
        break;
    case G3_PPR: printf(" %u", asked(signal.octets)); break;
    case G3_OTHER: printf(" %02x", signal.control); break;
    }
    printf(signal.kind == G3_OTHER || comes_back(&signal) ? "\n" : " DOESN'T COME BACK\n");
}

int main(int argc, char **argv)
{
    static uint8_t content[300];
    g3_deframer deframer = G3_EMPTY;
    size_t length = 0;
    uint64_t count = 0;
    unsigned number = 0;
    if (argc != 2) return fprintf(stderr, "usage: signals LINE.bits\n"), 2;
    uint8_t *line = read_file(argv[1], &length);
    if (line == NULL) return perror(argv[1]), 1;
    g3_status status = g3_deframer_new(&deframer);
    if (status == G3_OK) status = g3_deframer_feed(&deframer, line, length);
    while (status == G3_OK && g3_deframer_next(&deframer, content, sizeof content, &count) == G3_OK) {
        printf("%u ", ++number);
        for (uint64_t i = 0; i < count; i++) printf("%02x", content[i]);
        print(content, count);
    }
    free(line);
    g3_deframer_free(&deframer);
    return status == G3_OK ? 0 : 1;
}
