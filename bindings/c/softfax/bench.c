/* Calls of softfax on ptys, over Class 1 modems of libspandsp that a line of sound joins, on a clock that runs as fast as the processor.
 *
 *     bench FOLDER                                        the calls of the gate
 *     bench FOLDER --table SEEDS [PAIR [LINE]] [WAYS..]   a table: each pair, or one or "all", on each line, or on one
 *     bench FOLDER --call SEED PAIR LINE [WAYS..]         one call of it; what happens is told on standard error
 *     bench --ptys LINK LINK                              two ptys, in real time, with a link to each: what dials on one rings at the other
 *
 * PAIR is the caller and the answerer, as it:ours, where "it" is libspandsp's own terminal and ours is behind a modem. A cell of the table
 * has twelve kinds of calls with each seed: three modems, two codes, and 1 to 3 pages, of which the second is wider. WAYS are xoff, echoes,
 * silent, fixed, late=MILLIS. FOLDER is for the pages of both kinds of terminals. Status 1: a page is on disk that isn't the document's, or
 * a confirmed one is missing; in the calls of the gate, also if any fails. */
#include "exchange.h"
#include "on_pty.h"
#include "theirs.h"
#include <stdio.h>
#include <stdlib.h>
#include <string.h>

enum { ROWS = 288 };

static const line_kind LINES[] = {
    {.name = "clean"},
    {.name = "noise of -44 dBm0", .noise = -44},
    {.name = "noise of -36 dBm0", .noise = -36},
    {.name = "noise of -30 dBm0", .noise = -30},
    {.name = "-54 dBm0 all the time", .noise = -54, .always = 1},
    {.name = "DCS cut", .cut = 1, .lasts = 9000},
    {.name = "training of the check cut", .cut = 2, .lasts = 900},
    {.name = "all of the check cut", .cut = 2, .lasts = 9000},
    {.name = "300 ms of the check cut", .cut = 2, .from = 1700, .lasts = 300},
    {.name = "training of the page cut", .cut = 3, .lasts = 300},
    {.name = "100 ms of the page cut", .cut = 3, .from = 700, .lasts = 100},
    {.name = "all of the page cut", .cut = 3, .lasts = 90000},
    {.name = "PPS cut", .cut = 4, .lasts = 9000},
    {.name = "hits each 8 s, -44 dBm0", .noise = -44, .every = 8000},
    {.name = "hits each 4 s, -44 dBm0", .noise = -44, .every = 4000},
};
enum { LINES_COUNT = sizeof LINES / sizeof LINES[0] };

typedef struct pair { const char *name; int caller_is_ours, answerer_is_ours; } pair;
static const pair PAIRS[] = {{"ours:ours", 1, 1}, {"it:ours", 0, 1}, {"ours:it", 1, 0}, {"it:it", 0, 0}};
enum { PAIRS_COUNT = sizeof PAIRS / sizeof PAIRS[0] };

typedef struct bench {
    const char *folder;
    behind_way way;
    paper papers[MOST_PAGES];
    uint32_t calls, well, broken, stops; /* of the cell */
} bench;

/* Runs a call of a pair; returns whether it could begin. */
static int try_call(bench *it, const pair *who, const trial *kind)
{
    party caller, answerer;
    outcome came = {0};
    const behind_way *way = &it->way;
    int begins = who->caller_is_ours ? trial_on_pty(&caller, kind, 1, way, it->folder) : trial_theirs(&caller, kind, 1, it->folder);
    if (!begins) return fprintf(stderr, "bench: the caller can't begin\n"), 0;
    begins = who->answerer_is_ours ? trial_on_pty(&answerer, kind, 0, way, it->folder) : trial_theirs(&answerer, kind, 0, it->folder);
    if (!begins) return caller.leave(caller.it, &came), fprintf(stderr, "bench: the answerer can't begin\n"), 0;
    trial_run(&caller, &answerer, kind, &came);
    int is_well = trial_went_well(kind, &came);
    it->calls++;
    it->well += (uint32_t)is_well;
    it->broken += (uint32_t)trial_is_broken(&came);
    it->stops += came.stops;
    if (is_well) return 1;
    fprintf(stderr, "%s %s modems %u coding %u pages %u seed %u: caller: %s; answerer: %s; confirmed %u, equal %u, wrong %u; %u s\n",
        who->name, kind->line.name, kind->modems, kind->coding, kind->pages, (uint32_t)kind->seed, came.caller, came.answerer,
        (uint32_t)came.confirmed, came.equal, came.wrong, came.seconds);
    return 1;
}

static int try_seed(bench *it, const pair *who, const line_kind *line, uint32_t seed, const char *tells)
{
    trial kind = {.line = *line, .modems = 1 + seed % 3, .coding = seed / 3 % 2 ? G3_MMR : G3_MH, .pages = 1 + seed / 6 % 3, .limit = 2,
        .seed = seed, .papers = it->papers, .ctc = 1, .ced_joins_dis = who->answerer_is_ours, .identity = "+49 30 1234", .tells = tells};
    return try_call(it, who, &kind);
}

/* Twelve kinds of calls, with so many seeds each. */
static int try_cell(bench *it, const pair *who, const line_kind *line, uint32_t seeds)
{
    it->calls = it->well = it->broken = it->stops = 0;
    for (uint32_t i = 0; i < 12 * seeds; i++) {
        if (!try_seed(it, who, line, i, NULL)) return 0;
    }
    return 1;
}

static int is_wanted(const char *name, const char *wanted)
{
    return wanted == NULL || strcmp(name, wanted) == 0 || strcmp(wanted, "all") == 0;
}

/* One call, of a pair and on a line that are named; returns whether it went well. */
static int try_named(bench *it, uint32_t seed, const char *who, const char *on)
{
    int pair = 0, line = 0;
    while (pair < PAIRS_COUNT && (who == NULL || strcmp(PAIRS[pair].name, who) != 0)) pair++;
    while (line < LINES_COUNT && (on == NULL || strcmp(LINES[line].name, on) != 0)) line++;
    return pair < PAIRS_COUNT && line < LINES_COUNT && try_seed(it, &PAIRS[pair], &LINES[line], seed, "told") && it->well == 1;
}

static void print_head(const char *who)
{
    printf("| line |");
    for (int i = 0; i < PAIRS_COUNT; i++) {
        if (is_wanted(PAIRS[i].name, who)) printf(" %s |", PAIRS[i].name);
    }
    printf("\n|---|");
    for (int i = 0; i < PAIRS_COUNT; i++) printf("%s", is_wanted(PAIRS[i].name, who) ? "---|" : "");
    printf("\n");
}

static int try_table(bench *it, uint32_t seeds, const char *who, const char *line)
{
    uint32_t broken = 0;
    print_head(who);
    for (int i = 0; i < LINES_COUNT; i++) {
        if (!is_wanted(LINES[i].name, line)) continue;
        printf("| %s |", LINES[i].name);
        for (int k = 0; k < PAIRS_COUNT; k++) {
            if (!is_wanted(PAIRS[k].name, who)) continue;
            if (!try_cell(it, &PAIRS[k], &LINES[i], seeds)) return 0;
            printf(" %u of %u%s |", it->well, it->calls, it->broken > 0 ? ", WRONG" : "");
            fflush(stdout);
            broken += it->broken;
        }
        printf("\n");
    }
    return broken == 0;
}

/* The calls of the gate: on a clean line by each pair, and ours on lines that cut something; all have to complete. */
static int try_gate(bench *it)
{
    static const struct { int pair; const char *line; uint32_t seeds; } CELLS[] = {
        {0, "clean", 3}, {1, "clean", 2}, {2, "clean", 2}, {0, "training of the check cut", 2}, {0, "100 ms of the page cut", 1},
        {0, "PPS cut", 2}};
    static const soft_ways OTHERS[] = {{.silent = 1, .fixed = 1, .late = 20}, {.xoff = 1, .echoes = 1}};
    uint32_t calls = 0, well = 0, broken = 0;
    for (size_t i = 0; i < sizeof CELLS / sizeof CELLS[0]; i++) {
        int line = 0;
        while (strcmp(LINES[line].name, CELLS[i].line) != 0) line++;
        if (!try_cell(it, &PAIRS[CELLS[i].pair], &LINES[line], CELLS[i].seeds)) return 0;
        calls += it->calls, well += it->well, broken += it->broken;
    }
    for (size_t i = 0; i < sizeof OTHERS / sizeof OTHERS[0]; i++) {
        it->way.ways = OTHERS[i];
        if (!try_cell(it, &PAIRS[0], &LINES[0], 1)) return 0;
        calls += it->calls, well += it->well, broken += it->broken;
        if (it->way.ways.xoff && it->stops == 0) return fprintf(stderr, "bench: no XOFF has stopped a tty\n"), 0;
    }
    printf("softfax: %u of %u calls on ptys over Class 1 modems of spandsp complete, with its own terminal each way and with ours\n",
        well, calls);
    return well == calls && broken == 0;
}

static int take_way(soft_ways *to, const char *word)
{
    if (strcmp(word, "xoff") == 0) return to->xoff = 1;
    if (strcmp(word, "echoes") == 0) return to->echoes = 1;
    if (strcmp(word, "silent") == 0) return to->silent = 1;
    if (strcmp(word, "fixed") == 0) return to->fixed = 1;
    return strncmp(word, "late=", 5) == 0 && (to->late = atoi(word + 5)) > 0;
}

static int usage(void)
{
    fprintf(stderr, "usage: bench FOLDER [--table SEEDS [PAIR [LINE]] [WAYS..] | --call SEED PAIR LINE [WAYS..]] | --ptys LINK LINK\n");
    return 2;
}

int main(int argc, char **argv)
{
    static const uint32_t WIDTHS[MOST_PAGES] = {1728, 2432, 1728};
    static bench it = {.way = {.kind = &soft_of_spandsp}};
    const char *words[4] = {NULL};
    int count = 0, has_table = 0, has_call = 0, is_right = 0;
    if (argc == 4 && strcmp(argv[1], "--ptys") == 0) return !exchange_run(&soft_of_spandsp, argv + 2);
    for (int i = 1; i < argc; i++) {
        if (strcmp(argv[i], "--table") == 0) has_table = 1;
        else if (strcmp(argv[i], "--call") == 0) has_call = 1;
        else if (!take_way(&it.way.ways, argv[i]) && count < 4) words[count++] = argv[i];
    }
    int number = count > 1 ? atoi(words[1]) : 0;
    if (count == 0 || (count > 1) != (has_table || has_call) || (has_table && number <= 0)) return usage();
    it.folder = words[0];
    for (uint32_t i = 0; i < MOST_PAGES; i++) {
        if (!paper_new(&it.papers[i], WIDTHS[i], ROWS, i + 1)) return fprintf(stderr, "bench: no memory\n"), 1;
    }
    if (has_call) is_right = try_named(&it, (uint32_t)number, words[2], words[3]);
    else is_right = has_table ? try_table(&it, (uint32_t)number, words[2], words[3]) : try_gate(&it);
    for (uint32_t i = 0; i < MOST_PAGES; i++) paper_free(&it.papers[i]);
    return !is_right;
}
