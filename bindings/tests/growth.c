/* Counts the instructions for a row that doesn't end and comes in pieces of 32 octets, one by one, as a debugger does: in T.6 only 0 bits;
 * in T.4 runs of no pixels, fill, an EOL and fill, and a white row, three EOLs and fill. 2,048 octets more may take 2.2 times the
 * instructions of 1,024 more: they grow by the octets, whatever the pieces. Prints nothing and ends with 0 if they do, and with 77 if the
 * system lets no program step through another. */
#include "g3fax.h"
#include <stdio.h>
#include <string.h>
/* words of a struct that are left out are 0 */
#pragma GCC diagnostic ignored "-Wmissing-field-initializers"

/* of the C library, on x86-64 Linux */
int fork(void);
int kill(int process, int signal);
int raise(int signal);
int waitpid(int process, int *status, int options);
long ptrace(int request, ...);
void _exit(int status);
enum { TRACE_ME = 0, STEP = 9, SET_OPTIONS = 0x4200, ENDS_WITH_TRACER = 0x100000 };
enum { KILLED = 9, TRAPPED = 5, STOPPED = 19, PIECE = 32, NOT_HERE = 77 };
enum { FEW = 1024, MORE = 2 * FEW, MANY = 4 * FEW };

static uint8_t octets[MANY];

static size_t put(size_t bit, const char *word)
{
    for (; *word != 0; word++, bit++)
        if (*word == '1') octets[bit / 8] |= (uint8_t)(128 >> bit % 8);
    return bit;
}

/* Fills the octets with the row of this name and what comes before it; the rest are 0 bits. */
static void put_row(const char *name)
{
    static const char eol[] = "000000000001", white[] = "00110101", black[] = "0000110111", white_1728[] = "010011011";
    size_t bit = 0;
    memset(octets, 0, sizeof octets);
    if (strcmp(name, "runs") == 0) {
        bit = put(bit, eol);
        while (bit + sizeof white + sizeof black < 8 * sizeof octets) bit = put(put(bit, white), black);
    } else if (strcmp(name, "eol") == 0) {
        put(bit, eol);
    } else if (strcmp(name, "end") == 0) {
        bit = put(put(put(bit, eol), white_1728), white);
        for (int each = 0; each < 3; each++) bit = put(bit, eol);
    }
}

/* Reads so many octets in pieces, and ends the process if a piece isn't taken whole, or if the rows before the last one aren't `rows`. */
static void read_octets(uint32_t coding, size_t size, uint64_t rows)
{
    g3_row_reader reader = G3_EMPTY;
    g3_code code = {coding, G3_MSB_FIRST, 1728, 1};
    uint8_t row[216];
    uint64_t taken = 0, count = 0, place = 0;
    if (g3_row_reader_new(&reader, &code) != G3_OK) _exit(1);
    for (size_t at = 0; at < size; at += PIECE) {
        if (g3_row_reader_feed(&reader, octets + at, PIECE, &taken) != G3_OK || taken != PIECE) _exit(1);
        for (; g3_row_reader_next(&reader, row, sizeof row, &count, &place) == G3_OK; rows--) {}
    }
    if (rows != 0) _exit(1);
    g3_row_reader_free(&reader);
}

/* The instructions between two stops of a process that reads so many octets; 0 if they can't be counted. *ended: how this program ends
 * then. */
static uint64_t counted(uint32_t coding, size_t size, uint64_t rows, int *ended)
{
    uint64_t count = 0;
    int status = 0, process = fork();
    if (process == 0) {
        if (ptrace(TRACE_ME, 0, NULL, NULL) != 0) _exit(NOT_HERE);
        raise(STOPPED);
        read_octets(coding, size, rows);
        raise(STOPPED);
        _exit(0);
    }
    if (process < 0) return 0;
    waitpid(process, &status, 0);
    if (status == NOT_HERE << 8) *ended = NOT_HERE;
    if (status != (STOPPED << 8 | 127)) return 0;
    ptrace(SET_OPTIONS, process, NULL, (void *)ENDS_WITH_TRACER);
    do {
        if (ptrace(STEP, process, NULL, NULL) != 0) {
            *ended = NOT_HERE;
            break;
        }
        waitpid(process, &status, 0);
        count++;
    } while (status == (TRAPPED << 8 | 127));
    int whole = status == (STOPPED << 8 | 127) && *ended != NOT_HERE;
    if ((status & 127) == 127) {
        kill(process, KILLED);
        waitpid(process, &status, 0);
    }
    return whole ? count : 0;
}

int main(void)
{
    static const struct { const char *name; uint32_t coding; uint64_t rows; } kinds[] = {
        {"zeros", G3_MMR, 0}, {"runs", G3_MH, 0}, {"fill", G3_MH, 0}, {"eol", G3_MH, 0}, {"end", G3_MH, 1},
    };
    static const size_t sizes[3] = {FEW, MORE, MANY};
    for (size_t at = 0; at < sizeof kinds / sizeof kinds[0]; at++) {
        uint64_t counts[3];
        int ended = 1;
        put_row(kinds[at].name);
        for (int size = 0; size < 3; size++) {
            counts[size] = counted(kinds[at].coding, sizes[size], kinds[at].rows, &ended);
            if (counts[size] != 0) continue;
            if (ended != NOT_HERE) fprintf(stderr, "growth: %s: %d octets weren't read\n", kinds[at].name, (int)sizes[size]);
            return ended;
        }
        if (counts[0] >= counts[1] || counts[1] >= counts[2] || 10 * (counts[2] - counts[1]) > 22 * (counts[1] - counts[0])) {
            fprintf(stderr, "growth: %s: %llu, %llu and %llu instructions for %d, %d and %d octets\n", kinds[at].name,
                (unsigned long long)counts[0], (unsigned long long)counts[1], (unsigned long long)counts[2], FEW, MORE, MANY);
            return 1;
        }
    }
    return 0;
}
