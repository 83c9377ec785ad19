/* bits-test [SEEDS [--tell]]: calls of the terminal with itself over modems of plain bits, so that it is tested where libspandsp isn't
 * installed. Each kind of call is tried on each line: a clean one, lines that cut one carrier of the caller, and lines that noise strikes
 * again and again, with so many seeds, 1 if not said. Status 1: a page is stored that isn't the document's, a confirmed one is missing, an
 * end doesn't hang up, a call fails on a line that is struck once at most, or one that is stopped doesn't end in order. --tell: what
 * happens in each call, on standard error. */
#include "stopped.h"
#include <stdio.h>
#include <stdlib.h>
#include <string.h>

enum { ROWS = 48 };

static const line_kind LINES[] = {
    {.name = "clean"},
    {.name = "DCS is cut", .cut = 1, .lasts = 4000},
    {.name = "the training of the check is cut", .cut = 2, .lasts = 600},
    {.name = "the check is cut", .cut = 2, .from = 1500, .lasts = 300},
    {.name = "the training of the page is cut", .cut = 3, .lasts = 150},
    {.name = "the page is cut", .cut = 3, .from = 400, .lasts = 100},
    {.name = "PPS is cut", .cut = 4, .lasts = 4000},
    {.name = "noise each 10 s", .every = 10000},
    {.name = "noise each 3 s", .every = 3000},
};
enum { LINES_COUNT = sizeof LINES / sizeof LINES[0] };

typedef struct tally { uint32_t calls, well, broken, endless; } tally;

/* A call of the terminal with itself. */
static void try_call(const trial *kind, tally *out)
{
    party caller, answerer;
    outcome came = {0};
    int begins = trial_ours(&caller, kind, 1);
    if (!begins || !trial_ours(&answerer, kind, 0)) {
        if (begins) caller.leave(caller.it, &came);
        out->broken++; /* no memory */
        return;
    }
    trial_run(&caller, &answerer, kind, &came);
    int endless = strcmp(came.caller, "no end") == 0 || strcmp(came.answerer, "no end") == 0;
    out->calls++;
    out->well += trial_went_well(kind, &came);
    out->broken += trial_is_broken(&came);
    out->endless += endless;
    if (kind->tells == NULL) return;
    fprintf(stderr, "%s: modems %u coding %u pages %u limit %u seed %u: caller %s, answerer %s, confirmed %u, equal %u, wrong %u, %u s\n",
            kind->line.name, kind->modems, kind->coding, kind->pages, kind->limit, (uint32_t)kind->seed, came.caller, came.answerer,
            (uint32_t)came.confirmed, came.equal, came.wrong, came.seconds);
}

/* All kinds of calls on a line; whether nothing was wrong. */
static int try_line(const line_kind *line, uint32_t seeds, const paper *papers, const char *tells)
{
    tally all = {0, 0, 0, 0};
    if (line->every == 0) seeds = 1; /* nothing is left to chance */
    for (uint32_t i = 0; i < 3 * 2 * 2 * 2 * seeds; i++) {
        trial kind = {.line = *line, .modems = 1 + i % 3, .coding = i / 3 % 2 ? G3_MMR : G3_MH, .pages = i / 6 % 2 ? 3 : 1,
            .limit = 1 + i / 12 % 2, .seed = i, .papers = papers, .tells = tells};
        try_call(&kind, &all);
    }
    printf("%s: %u of %u calls complete\n", line->name, all.well, all.calls);
    if (all.broken > 0) printf("%s: in %u calls a page is wrong, or confirmed and missing\n", line->name, all.broken);
    if (all.endless > 0) printf("%s: in %u calls an end doesn't hang up\n", line->name, all.endless);
    return all.broken == 0 && all.endless == 0 && (line->every != 0 || all.well == all.calls);
}

/* A caller that says frames by V.21 without end. */
typedef struct babbler {
    modem *modem;
    uint8_t octets[64];
    uint64_t bits;
} babbler;

static void babbler_step(void *user, const int16_t *in, int16_t *out)
{
    babbler *it = user;
    (void)in;
    if (!modem_of_sound.say(it->modem, out)) modem_of_sound.begin_carrier(it->modem, G3_V21, 0, it->octets, it->bits);
}

static int babbler_is_over(void *user)
{
    (void)user;
    return 1; /* it isn't waited for */
}

static const char *babbler_ending(void *user)
{
    (void)user;
    return "babbles";
}

static void babbler_leave(void *user, outcome *out)
{
    (void)out;
    modem_of_sound.free(((babbler *)user)->modem);
}

/* A call from it; returns whether the answerer refuses it in time. */
static int try_babbler(const char *tells)
{
    static const uint8_t CONTENT[] = {0xff, 0x03, 0x23, 0}; /* one that isn't for us, and isn't the last of its signal */
    enum { SOON = 90 };
    babbler it = {.modem = modem_new()};
    party caller = {&it, babbler_step, babbler_is_over, babbler_ending, babbler_leave}, answerer;
    trial kind = {.line = {.name = "babble"}, .modems = G3_V17, .coding = G3_MMR, .limit = 1, .tells = tells};
    g3_octets handle = G3_EMPTY;
    uint64_t length = 0;
    outcome came;
    int begins = it.modem != NULL && g3_frame_write(CONTENT, sizeof CONTENT, &handle, &it.bits) == G3_OK
        && g3_octets_copy(&handle, it.octets, sizeof it.octets, &length) == G3_OK && trial_ours(&answerer, &kind, 0);
    g3_octets_free(&handle);
    if (!begins) return modem_of_sound.free(it.modem), 0;
    trial_run(&caller, &answerer, &kind, &came);
    printf("a caller that never stops: %s after %u s\n", came.answerer, came.seconds);
    return strcmp(came.answerer, "refused") == 0 && came.seconds < SOON;
}

int main(int argc, char **argv)
{
    static const uint32_t WIDTHS[MOST_PAGES] = {1728, 2432, 1728};
    const char *tells = argc > 2 && strcmp(argv[2], "--tell") == 0 ? "told" : NULL;
    uint32_t seeds = argc > 1 ? (uint32_t)atoi(argv[1]) : 1;
    paper papers[MOST_PAGES];
    int is_right = 1;
    for (uint32_t i = 0; i < MOST_PAGES; i++) {
        if (!paper_new(&papers[i], WIDTHS[i], ROWS, i + 1)) return fprintf(stderr, "bits-test: no memory\n"), 1;
    }
    for (uint32_t i = 0; i < LINES_COUNT; i++) is_right &= try_line(&LINES[i], seeds, papers, tells);
    is_right &= stopped_try(trial_ours, tells) & try_babbler(tells);
    for (uint32_t i = 0; i < MOST_PAGES; i++) paper_free(&papers[i]);
    return !is_right;
}
