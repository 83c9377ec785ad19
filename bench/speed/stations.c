/* stations IN.pbm mh|mmr CALLS [OPEN]: measures an answering station of libg3fax, without a modem, on the calls of one page.
 *
 * A caller and an answerer have the call once in this process, and what the caller sends is kept: V.21 at 300 bit/s, the page at
 * 14,400. Then CALLS answerers have it, one after the other: each hears the page in pieces of 36 octets, which come in 20 ms, and the
 * rest octet by octet, makes its bursts, and hands its page out. Prints the milliseconds of the call on the line, with 75 ms before
 * each burst and without the training of modems; the least and the median of the microseconds of processor time of a call; and the
 * octets of the line. With OPEN so many answerers have the call at once, up to the last octets of the page: prints the octets of
 * memory in use for each of them, and the greatest that a process of them has resident. stations.py makes pages and runs this. */
#include "g3fax.h"
#include <malloc.h>
#include <stdio.h>
#include <stdlib.h>
#include <string.h>
#include <sys/resource.h>
#include <time.h>

enum { MOST = 4096, PIECE = 36 };

typedef struct heard { uint8_t *octets; uint64_t length; int check, slow, turn; } heard;

static const unsigned speeds[] = {0, 300, 2400, 4800, 7200, 9600, 7200, 9600, 12000, 14400};
static heard bursts[MOST];
static unsigned many, last_page;
static double millis;
static uint64_t line;
static uint8_t octets[1 << 22];

static void check(g3_status status, const char *what)
{
    if (status == G3_OK) return;
    fprintf(stderr, "%s: %s\n", what, g3_status_text(status));
    exit(1);
}

/* The next burst of a station into `octets`. */
static int says(g3_terminal *from, g3_burst *burst, uint64_t *length)
{
    g3_octets bits = G3_EMPTY;
    g3_status status = g3_terminal_next_burst(from, &bits, burst);
    if (status == G3_NOTHING) return 0;
    check(status, "a burst");
    check(g3_octets_copy(&bits, octets, sizeof octets, length), "its octets");
    g3_octets_free(&bits);
    return 1;
}

/* The pages of an answerer, before its next burst. */
static void takes_pages(g3_terminal *answerer)
{
    g3_page page = G3_EMPTY;
    while (g3_terminal_take_page(answerer, &page) == G3_OK) g3_page_free(&page);
}

/* An answerer hears a burst in pieces. */
static void hears(g3_terminal *answerer, const heard *burst)
{
    if (burst->check) {
        check(g3_terminal_hear_training(answerer, burst->octets, burst->length), "a training check");
        return;
    }
    uint64_t piece = burst->slow ? 1 : PIECE;
    for (uint64_t at = 0; at < burst->length; at += piece) {
        uint64_t left = burst->length - at;
        check(g3_terminal_hear(answerer, burst->octets + at, left < piece ? left : piece), "a piece");
    }
}

/* A station's turn on the line; the caller's bursts are kept. */
static unsigned turn(g3_terminal *from, g3_terminal *to, int caller, int number)
{
    g3_burst burst = G3_INIT(g3_burst);
    unsigned said = 0;
    for (uint64_t length; says(from, &burst, &length); said++) {
        millis += 75 + 1000.0 * (double)burst.bits / speeds[burst.carrier];
        heard one = {malloc(length + 1), length, burst.check != 0, burst.carrier == G3_V21, number};
        if (one.octets == NULL || many == MOST) exit(1);
        memcpy(one.octets, octets, length);
        if (!caller) {
            check(g3_terminal_hear(to, one.octets, length), "an answer");
            free(one.octets);
            continue;
        }
        hears(to, &one);
        takes_pages(to);
        if (!one.check && !one.slow) last_page = many;
        line += length;
        bursts[many++] = one;
    }
    return said;
}

/* The call, once. */
static void record(g3_document *document, uint32_t coding, const g3_caps *caps)
{
    g3_terminal caller = G3_EMPTY, answerer = G3_EMPTY;
    g3_wish wish = {.modems = G3_V17, .coding = coding, .frame = 256};
    g3_state state = G3_INIT(g3_state);
    check(g3_answerer_new(&answerer, caps), "an answerer");
    check(g3_caller_new(&caller, document, &wish), "a caller");
    for (int number = 0; turn(&answerer, &caller, 0, number) + turn(&caller, &answerer, 1, number) > 0; number++) continue;
    check(g3_terminal_state(&caller, &state), "the state");
    if (state.end != G3_END_NORMAL) fprintf(stderr, "the call ended %u\n", state.end), exit(1);
    g3_terminal_free(&caller);
    g3_terminal_free(&answerer);
}

/* An answerer has the first bursts of the call. */
static void has(g3_terminal *answerer, unsigned first)
{
    g3_burst burst = G3_INIT(g3_burst);
    uint64_t length;
    for (unsigned at = 0; at < first; at++) {
        if (at == 0 || bursts[at].turn != bursts[at - 1].turn)
            while (says(answerer, &burst, &length)) continue;
        hears(answerer, bursts + at);
        takes_pages(answerer);
    }
}

static double micros(void)
{
    struct timespec now;
    clock_gettime(CLOCK_PROCESS_CPUTIME_ID, &now);
    return 1e6 * (double)now.tv_sec + 1e-3 * (double)now.tv_nsec;
}

static int by_size(const void *a, const void *b)
{
    const double *left = a, *right = b;
    return (*left > *right) - (*left < *right);
}

static void time_calls(const g3_caps *caps, unsigned calls)
{
    double *times = calloc(calls + 1, sizeof *times);
    if (times == NULL) exit(1);
    for (unsigned call = 0; call < calls; call++) {
        g3_terminal answerer = G3_EMPTY;
        g3_state state = G3_INIT(g3_state);
        double begun = micros();
        check(g3_answerer_new(&answerer, caps), "an answerer");
        has(&answerer, many);
        check(g3_terminal_state(&answerer, &state), "the state");
        g3_terminal_free(&answerer);
        times[call] = micros() - begun;
        if (state.end != G3_END_NORMAL) fprintf(stderr, "an answerer ended %u\n", state.end), exit(1);
    }
    qsort(times, calls, sizeof *times, by_size);
    printf("%.0f %.1f %.1f %llu\n", millis, times[0], times[calls / 2], (unsigned long long)line);
}

static void open_calls(const g3_caps *caps, unsigned open)
{
    g3_terminal *answerers = calloc(open, sizeof *answerers);
    struct rusage usage;
    if (answerers == NULL) exit(1);
    size_t before = mallinfo2().uordblks + mallinfo2().hblkhd;
    for (unsigned at = 0; at < open; at++) {
        check(g3_answerer_new(answerers + at, caps), "an answerer");
        has(answerers + at, last_page);
        /* its own burst is said first: until then it hears no page */
        g3_burst burst = G3_INIT(g3_burst);
        for (uint64_t length; says(answerers + at, &burst, &length);) continue;
        heard page = bursts[last_page];
        page.length -= page.length / 16; /* the frames after the last data aren't there yet */
        hears(answerers + at, &page);
    }
    getrusage(RUSAGE_SELF, &usage);
    size_t after = mallinfo2().uordblks + mallinfo2().hblkhd;
    printf("%.0f %ld\n", (double)(after - before) / open, usage.ru_maxrss);
}

int main(int argc, char **argv)
{
    g3_caps caps = {.modems = G3_V17, .t6 = 1, .fine = 1, .widest = 2432, .limit = 2};
    g3_page page = G3_EMPTY;
    g3_document document = G3_EMPTY;
    uint64_t count = 0;
    FILE *in = argc == 4 || argc == 5 ? fopen(argv[1], "rb") : NULL;
    uint8_t *image = malloc(1 << 24);
    if (in == NULL || image == NULL) return fprintf(stderr, "usage: stations IN.pbm mh|mmr CALLS [OPEN]\n"), 2;
    check(g3_page_read_pbm(image, fread(image, 1, 1 << 24, in), 1, &page, &count), argv[1]);
    fclose(in);
    free(image);
    check(g3_document_new(&document), "a document");
    check(g3_document_push(&document, &page), "a page");
    record(&document, strcmp(argv[2], "mh") == 0 ? G3_MH : G3_MMR, &caps);
    if (argc == 5) open_calls(&caps, (unsigned)atoi(argv[4]));
    else time_calls(&caps, (unsigned)atoi(argv[3]));
    g3_page_free(&page);
    g3_document_free(&document);
    return 0;
}
