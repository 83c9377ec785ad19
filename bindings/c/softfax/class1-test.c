/* class1-test FOLDER [--tell | --few]: calls of softfax on two ptys, over two Class 1 modems of t31.c and bits.c's line, so that class1.c
 * and tty.c are tested without libspandsp. Each kind of call is tried on each line, also with modems that have other ways. Then modems
 * that fail: each has to be named in words. Status 1: a call fails, a page is on disk that isn't the document's, a confirmed one is
 * missing, XOFF stops no tty, or an end doesn't hang up. --tell: what happens in each call, on standard error; --few: three kinds of
 * calls on a clean line, for valgrind. FOLDER is for the pages, and empty. */
#include "class1_frame.h"
#include "class1_words.h"
#include "identity.h"
#include "on_pty.h"
#include "stopped.h"
#include <stdio.h>
#include <string.h>

enum { ROWS = 48, CUTS_DCS = 1, CUTS_PPS = 4 };

static const line_kind LINES[] = {
    {.name = "clean"},
    {.name = "DCS is cut", .cut = CUTS_DCS, .lasts = 4000},
    {.name = "the training of the check is cut", .cut = 2, .lasts = 600},
    {.name = "all of the check is cut", .cut = 2, .lasts = 9000},
    {.name = "the check is cut", .cut = 2, .from = 1500, .lasts = 300},
    {.name = "the training of the page is cut", .cut = 3, .lasts = 150},
    {.name = "the page is cut", .cut = 3, .from = 400, .lasts = 100},
    {.name = "PPS is cut", .cut = CUTS_PPS, .lasts = 4000},
};
enum { LINES_COUNT = sizeof LINES / sizeof LINES[0] };

static const soft_ways WAYS[] = {{0}, {.echoes = 1, .fixed = 1}, {.silent = 1, .fixed = 1}, {.xoff = 1}, {.repeats = 1}, {.chatty = 1}};
enum { WAYS_COUNT = sizeof WAYS / sizeof WAYS[0] };

static const char *folder;
static int calls, complete; /* on all lines */

/* Whether both ends of a whole call have counted the same, on a line that carries all that the answerer says, and a block a page; and the
 * caller has said DCS or PPS once more where it was cut, and no other command again. */
static int have_counted(const trial *kind, const g3_figures *caller, const g3_figures *answerer)
{
    int is_same = caller->pprs == answerer->pprs && caller->resent == answerer->resent && caller->failed_checks == answerer->failed_checks
        && caller->first_speed == answerer->first_speed && caller->last_speed == answerer->last_speed;
    return is_same && caller->blocks == kind->pages && answerer->blocks == kind->pages
        && memcmp(caller->peer, answerer->peer, sizeof caller->peer) == 0
        && caller->retries == (kind->line.cut == CUTS_DCS || kind->line.cut == CUTS_PPS);
}

/* Runs a call; returns whether nothing is broken, both ends hang up, they end as is said, and a normal call has its figures. NULL: in any
 * way. */
static int try_call(
    const trial *kind, const behind_way *caller_way, const behind_way *answerer_way, const char *caller_why, const char *answerer_why)
{
    party caller, answerer;
    outcome came = {0};
    if (!trial_on_pty(&caller, kind, 1, caller_way, folder)) return 0;
    if (!trial_on_pty(&answerer, kind, 0, answerer_way, folder)) {
        caller.leave(caller.it, &came);
        return 0;
    }
    trial_run(&caller, &answerer, kind, &came);
    int is_right = !trial_is_broken(&came) && strcmp(came.caller, "no end") != 0 && strcmp(came.answerer, "no end") != 0;
    if (caller_why != NULL) is_right = is_right && strcmp(came.caller, caller_why) == 0;
    if (answerer_why != NULL) is_right = is_right && strcmp(came.answerer, answerer_why) == 0;
    if (caller_why != NULL && strcmp(caller_why, "normal") == 0) {
        is_right = is_right && trial_went_well(kind, &came) && have_counted(kind, &came.counted[1], &came.counted[0]);
    }
    is_right = is_right && (came.stops > 0) == caller_way->ways.xoff;
    if (!is_right || kind->tells != NULL) {
        fprintf(stderr, "%s: modems %u coding %u pages %u seed %u: caller %s, answerer %s, confirmed %u, equal %u, wrong %u, %u s, "
            "%u XOFFs\n", kind->line.name, kind->modems, kind->coding, kind->pages, (uint32_t)kind->seed, came.caller, came.answerer,
            (uint32_t)came.confirmed, came.equal, came.wrong, came.seconds, came.stops);
    }
    return is_right;
}

/* So many kinds of calls on a line, by so many kinds of modems; returns whether all are right. */
static int try_line(const line_kind *line, uint32_t kinds, int ways, const paper *papers, const char *tells)
{
    int well = 0, count = 0;
    for (uint32_t i = 0; i < kinds; i++) {
        for (int way = 0; way < ways; way++, count++) {
            behind_way through = {&soft_of_bits, WAYS[way]};
            trial kind = {.line = *line, .modems = 1 + i % 3, .coding = i / 3 % 2 ? G3_MMR : G3_MH, .pages = i / 6 % 2 ? 3 : 1, .limit = 2,
                .seed = i, .papers = papers, .identity = "+49 30 1234", .tells = tells};
            well += try_call(&kind, &through, &through, "normal", "normal");
        }
    }
    printf("%s: %d of %d calls complete\n", line->name, well, count);
    calls += count, complete += well;
    return well == count;
}

static int begin_on_pty(party *out, const trial *kind, int calls)
{
    static const behind_way WAY = {&soft_of_bits, {0}};
    return trial_on_pty(out, kind, calls, &WAY, folder);
}

/* Modems that fail, and how their end has to name that. */
static int try_faults(const paper *papers, const char *tells)
{
    static const struct { soft_ways ways; int answers; const char *why; } FAULTS[] = {
        {{.mute = 1}, 0, "it doesn't answer to ATZ"},
        {{.mute = 200000}, 0, "normal"},
        {{.mute = 9000}, 0, "the modem has fallen silent"},
        {{.mute = 150}, 1, "the modem has fallen silent"}, /* while it waits for RING */
        {{.mute = 9000}, 1, "the modem has fallen silent"},
    };
    int well = 0, count = sizeof FAULTS / sizeof FAULTS[0];
    for (int i = 0; i < count; i++) {
        behind_way bad = {&soft_of_bits, FAULTS[i].ways}, good = {&soft_of_bits, {0}};
        trial kind = {.line = {.name = FAULTS[i].why}, .modems = G3_V17, .coding = G3_MMR, .pages = 1, .limit = 2, .papers = papers,
            .tells = tells};
        well += FAULTS[i].answers ? try_call(&kind, &good, &bad, NULL, FAULTS[i].why) : try_call(&kind, &bad, &good, FAULTS[i].why, NULL);
    }
    printf("%d of %d modems that fail are named\n", well, count);
    return well == count;
}

/* Octets behind CONNECT, and what is made of them. */
static int try_frames(void)
{
#define OCTETS(text) text, sizeof text - 1
    static const struct { const char *octets; size_t count; int result, is_whole, length; } CASES[] = {
        {OCTETS("\xff\x13\x80\x01\x02\x10\x03"), NO_RESULT, 1, 5},
        {OCTETS("\r\nCONNECT\r\n\xff\x13\x80\x01\x02\x10\x03"), NO_RESULT, 1, 5},
        {OCTETS("z\0\xff\x03\x40\x10\x10\x02\x10\x03"), NO_RESULT, 1, 5},
        {OCTETS("\xff\x13\r\nCONNECT\r\n\xff\x03\x20\x01\x02\x10\x03"), NO_RESULT, 1, 5},
        {OCTETS("\x13\x80\x01\x02\x03\x04\x10\x03"), NO_RESULT, 0, 0},
        {OCTETS("\xff\x13\x80\x01\x10\x03"), NO_RESULT, 0, 4},
        {OCTETS("\xff\x13\x80\x01\x02"), NO_RESULT, 0, 5},
        {OCTETS("\xff\x13\x80\x01\x02\r\nNO CARRIER\r\n"), NO_CARRIER, 0, 0},
        {OCTETS("\r\nOK\r\n"), OK, 0, 0}};
#undef OCTETS
    int well = 0, count = sizeof CASES / sizeof CASES[0];
    for (int i = 0; i < count; i++) {
        class1_frame frame;
        int is = NO_RESULT;
        class1_frame_begin(&frame);
        for (size_t at = 0; at < CASES[i].count; at++) {
            int more = class1_frame_take(&frame, (uint8_t)CASES[i].octets[at]);
            if (more != NO_RESULT && more != CONNECT) is = more;
        }
        well += is == CASES[i].result && class1_frame_is_whole(&frame) == CASES[i].is_whole && frame.length == CASES[i].length;
    }
    printf("%d of %d runs of octets behind CONNECT are read\n", well, count);
    return well == count;
}

/* A name is told without the spaces around it, and without what isn't printable. */
static int try_names(void)
{
    static const g3_figures NAMED = {.peer_length = 6, .peer = "1\n\xff 2 "}, NONE;
    char text[IDENTITY_MOST + 1] = "", none[IDENTITY_MOST + 1] = "1";
    identity_read(&NAMED, text);
    identity_read(&NONE, none);
    int is_right = strcmp(text, "1?? 2") == 0 && none[0] == 0;
    if (!is_right) printf("a name is told as '%s'\n", text);
    return is_right;
}

int main(int argc, char **argv)
{
    static const uint32_t WIDTHS[MOST_PAGES] = {1728, 2432, 1728};
    const char *tells = argc > 2 && strcmp(argv[2], "--tell") == 0 ? "told" : NULL;
    int is_few = argc > 2 && strcmp(argv[2], "--few") == 0;
    uint32_t lines = is_few ? 1 : LINES_COUNT, kinds = is_few ? 3 : 3 * 2 * 2;
    paper papers[MOST_PAGES];
    int is_right = try_frames() & try_names();
    if (argc < 2) return fprintf(stderr, "usage: class1-test FOLDER [--tell | --few]\n"), 2;
    folder = argv[1];
    for (uint32_t i = 0; i < MOST_PAGES; i++) {
        if (!paper_new(&papers[i], WIDTHS[i], ROWS, i + 1)) return fprintf(stderr, "class1-test: no memory\n"), 1;
    }
    for (uint32_t i = 0; i < lines; i++) is_right &= try_line(&LINES[i], kinds, i == 0 ? WAYS_COUNT : 1, papers, tells);
    printf("softfax: %d of %d calls on ptys over Class 1 modems of plain bits complete\n", complete, calls);
    is_right &= stopped_try(begin_on_pty, tells) & try_faults(papers, tells);
    for (uint32_t i = 0; i < MOST_PAGES; i++) paper_free(&papers[i]);
    return !is_right;
}
