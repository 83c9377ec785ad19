/* Calls of the terminal over libspandsp's modems, with libspandsp's own fax terminal and with itself, in one process.
 *
 *     softfax-test FOLDER                         a call of one page each way, and with itself
 *     softfax-test FOLDER --table SEEDS [LINE..]  twelve kinds of calls on each line, or on those that are named, as a table
 *     softfax-test FOLDER --call PAIR LINE MODEMS CODING PAGES SEED    one call of the table; what happens is told on standard error
 *     softfax-test FOLDER --refused IN OUT        calls over two pipes without error correction, as softfax calls with it
 *
 * PAIR is the caller and the answerer, as it:ours, where "it" is libspandsp's. Noise is in dBm0, the carriers are at -14. FOLDER is for
 * files of libspandsp's terminal, and for one process at a time. Status 1: a page is stored that isn't the document's, or a confirmed one
 * is missing; or a call fails on a clean line. */
#include "names.h"
#include "theirs.h"
#include <signal.h>
#include <stdio.h>
#include <stdlib.h>
#include <string.h>
#include <spandsp.h>

static const line_kind LINES[] = {
    {.name = "clean"},
    {.name = "-44", .noise = -44},
    {.name = "-36", .noise = -36},
    {.name = "-30", .noise = -30},
    {.name = "-54-always", .noise = -54, .always = 1},
    {.name = "-48-always", .noise = -48, .always = 1},
    {.name = "-40-always", .noise = -40, .always = 1},
    {.name = "hum-20", .hum = -20},
    {.name = "echo-30ms", .echo = -12, .late = 30},
    {.name = "echo-250ms", .echo = -12, .late = 250},
    {.name = "cut-DCS", .cut = 1, .lasts = 4000},
    {.name = "cut-check", .cut = 2, .from = 2000, .lasts = 300},
    {.name = "cut-page", .cut = 3, .from = 1000, .lasts = 100},
    {.name = "cut-PPS", .cut = 4, .lasts = 4000},
};
enum { LINES_COUNT = sizeof LINES / sizeof LINES[0], PAIRS_COUNT = 5, ROWS = 288 };

/* Who calls and who answers. */
typedef struct pair {
    const char *name;
    int caller_is_ours, answerer_is_ours;
    int ctc; /* our answerer answers CTC */
} pair;
static const pair PAIRS[] = {
    {"it:it", 0, 0, 0}, {"it:ours", 0, 1, 0}, {"it:ours+ctc", 0, 1, 1}, {"ours:it", 1, 0, 0}, {"ours:ours", 1, 1, 0}};

typedef struct tally { uint32_t calls, well, broken; } tally;

static int begin(int is_ours, const trial *kind, int calls, const char *folder, party *out)
{
    return is_ours ? trial_ours(out, kind, calls) : trial_theirs(out, kind, calls, folder);
}

/* Runs a call of a pair, and prints what came of it unless it went well; whether it could be begun. */
static int try_call(const pair *who, const trial *kind, const char *folder, tally *out)
{
    party caller, answerer;
    outcome came = {0};
    int begins = begin(who->caller_is_ours, kind, 1, folder, &caller);
    if (!begins || !begin(who->answerer_is_ours, kind, 0, folder, &answerer)) {
        if (begins) caller.leave(caller.it, &came);
        fprintf(stderr, "softfax-test: %s can't begin\n", who->name);
        return 0;
    }
    trial_run(&caller, &answerer, kind, &came);
    int well = trial_went_well(kind, &came);
    out->calls++;
    out->well += (uint32_t)well;
    out->broken += (uint32_t)trial_is_broken(&came);
    if (well && kind->tells == NULL) return 1;
    fprintf(stderr, "%s %s %u %u %u %u: caller: %s; answerer: %s; confirmed %u, equal %u, wrong %u; %u s\n", who->name, kind->line.name,
            kind->modems, kind->coding, kind->pages, (uint32_t)kind->seed, came.caller, came.answerer, (uint32_t)came.confirmed,
            came.equal, came.wrong, came.seconds);
    return 1;
}

/* A cell of the table: twelve kinds of calls, with so many seeds each; no two have the same. */
static int try_cell(const pair *who, const line_kind *line, uint32_t seeds, const paper *papers, const char *folder, tally *out)
{
    for (uint32_t i = 0; i < 12 * seeds; i++) {
        trial kind = {.line = *line, .modems = 1 + i % 3, .coding = i / 3 % 2 ? G3_MMR : G3_MH, .pages = i / 6 % 2 ? 3 : 1, .limit = 2,
            .seed = i, .papers = papers, .ctc = who->ctc};
        if (!try_call(who, &kind, folder, out)) return 0;
    }
    return 1;
}

/* A row of the table; whether nothing was wrong in it. */
static int try_line(const line_kind *line, uint32_t seeds, const paper *papers, const char *folder)
{
    int is_right = 1;
    if (line->noise == 0) seeds = 1; /* nothing is left to chance */
    printf("| %s |", line->name);
    for (int i = 0; i < PAIRS_COUNT; i++) {
        tally all = {0, 0, 0};
        if (!try_cell(&PAIRS[i], line, seeds, papers, folder, &all)) return 0;
        printf(" %u of %u%s |", all.well, all.calls, all.broken > 0 ? ", WRONG" : "");
        fflush(stdout);
        is_right &= all.broken == 0 && (strcmp(line->name, "clean") != 0 || all.well == all.calls);
    }
    printf("\n");
    return is_right;
}

static int is_wanted(const char *name, int count, char **names)
{
    int is = count == 0;
    for (int i = 0; i < count; i++) is |= strcmp(names[i], name) == 0;
    return is;
}

static int try_table(int count, char **words, const paper *papers, const char *folder)
{
    int is_right = 1;
    printf("| line |");
    for (int i = 0; i < PAIRS_COUNT; i++) printf(" %s |", PAIRS[i].name);
    printf("\n|---|---|---|---|---|---|\n");
    for (int i = 0; i < LINES_COUNT; i++) {
        if (is_wanted(LINES[i].name, count - 1, words + 1)) is_right &= try_line(&LINES[i], (uint32_t)atoi(words[0]), papers, folder);
    }
    return is_right;
}

static int try_one(char **words, const paper *papers, const char *folder)
{
    tally all = {0, 0, 0};
    int line = 0, who = 0;
    while (line < LINES_COUNT && strcmp(LINES[line].name, words[1]) != 0) line++;
    while (who < PAIRS_COUNT && strcmp(PAIRS[who].name, words[0]) != 0) who++;
    if (line == LINES_COUNT || who == PAIRS_COUNT) return 0;
    uint32_t modems = (uint32_t)atoi(words[2]), coding = (uint32_t)atoi(words[3]), pages = (uint32_t)atoi(words[4]);
    trial kind = {.line = LINES[line], .modems = modems, .coding = coding, .pages = pages, .limit = 2, .seed = (uint64_t)atoi(words[5]),
        .papers = papers, .ctc = PAIRS[who].ctc, .tells = "told"};
    return kind.pages <= MOST_PAGES && try_call(&PAIRS[who], &kind, folder, &all) && all.well == all.calls;
}

/* A call of one page of each pair with ours in it, over a clean line. */
static int try_few(const paper *papers, const char *folder)
{
    tally all = {0, 0, 0};
    for (int i = 1; i < PAIRS_COUNT; i++) {
        trial kind = {.line = LINES[0], .modems = G3_V17, .coding = G3_MMR, .pages = 1, .limit = 2, .papers = papers, .ctc = PAIRS[i].ctc};
        if (!try_call(&PAIRS[i], &kind, folder, &all)) return 0;
    }
    printf("softfax: %u of %u calls by spandsp's modems complete, with its own terminal each way and with ours\n", all.well, all.calls);
    return all.well == all.calls;
}

/* A caller without error correction: our answerer has to end the call soon, in order, and with nothing stored. */
static int try_without_correction(const paper *papers, const char *folder)
{
    enum { SOON = 35 };
    party caller, answerer;
    outcome came = {0};
    trial kind = {.line = LINES[0], .modems = G3_V17, .coding = G3_MMR, .pages = 1, .limit = 2, .papers = papers, .has_no_correction = 1};
    if (!begin(0, &kind, 1, folder, &caller)) return 0;
    if (!begin(1, &kind, 0, folder, &answerer)) return caller.leave(caller.it, &came), 0;
    trial_run(&caller, &answerer, &kind, &came);
    int is_right = strcmp(came.answerer, "refused") == 0 && came.equal + came.wrong == 0 && came.seconds <= SOON;
    printf("softfax: a caller without error correction: %s after %u s\n", came.answerer, came.seconds);
    return is_right;
}

/* libspandsp's terminal as a caller without error correction, over two pipes; returns whether it was run until it hung up. */
static int call_over_pipes(char **names, const paper *papers, const char *folder)
{
    trial kind = {.line = LINES[0], .modems = G3_V17, .coding = G3_MMR, .pages = 1, .papers = papers, .has_no_correction = 1};
    int16_t heard[SLICE] = {0}, said[SLICE];
    party caller;
    outcome came = {0};
    signal(SIGPIPE, SIG_IGN);
    FILE *out = fopen(names[1], "wb"), *in = out != NULL ? fopen(names[0], "rb") : NULL;
    int is_begun = in != NULL && begin(0, &kind, 1, folder, &caller), is_open = is_begun;
    while (is_open && !caller.is_over(caller.it)) {
        caller.step(caller.it, heard, said);
        is_open = fwrite(said, sizeof *said, SLICE, out) == SLICE && fflush(out) == 0 && fread(heard, sizeof *heard, SLICE, in) == SLICE;
    }
    if (is_begun) caller.leave(caller.it, &came);
    if (in != NULL) fclose(in);
    if (out != NULL) fclose(out);
    return is_begun;
}

/* Whether frames have the names that libspandsp gives them, and no others do, but with the bit that says which side has sent it. */
static int try_names(void)
{
    int wrong = 0;
    for (unsigned control = 1; control < 256; control++) {
        const char *name = frame_name((uint8_t)control), *wanted = t30_frametype((uint8_t)control);
        if (strcmp(wanted, "???") == 0) wanted = control % 2 == 1 ? frame_name((uint8_t)(control - 1)) : "frame";
        if (strcmp(name, wanted) == 0) continue;
        fprintf(stderr, "softfax: the frame %02x is named %s and not %s\n", control, name, wanted);
        wrong++;
    }
    return wrong == 0;
}

int main(int argc, char **argv)
{
    static const uint32_t WIDTHS[MOST_PAGES] = {1728, 2432, 1728};
    paper papers[MOST_PAGES];
    int is_right = 0;
    for (uint32_t i = 0; i < MOST_PAGES; i++) {
        if (!paper_new(&papers[i], WIDTHS[i], ROWS, i + 1)) return fprintf(stderr, "softfax-test: no memory\n"), 1;
    }
    if (argc == 2) is_right = try_names() && try_few(papers, argv[1]) && try_without_correction(papers, argv[1]);
    else if (argc >= 4 && strcmp(argv[2], "--table") == 0) is_right = try_table(argc - 3, argv + 3, papers, argv[1]);
    else if (argc == 9 && strcmp(argv[2], "--call") == 0) is_right = try_one(argv + 3, papers, argv[1]);
    else if (argc == 5 && strcmp(argv[2], "--refused") == 0) is_right = call_over_pipes(argv + 3, papers, argv[1]);
    else fprintf(stderr, "usage: softfax-test FOLDER [--table SEEDS [LINE..] | --call PAIR LINE MODEMS CODING PAGES SEED |\n"
        "                    --refused IN OUT]\n");
    for (uint32_t i = 0; i < MOST_PAGES; i++) paper_free(&papers[i]);
    return !is_right;
}
