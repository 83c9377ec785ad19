/* header-test FOLDER TIME TEXT FONT fine|standard mmr|mh PAGES: a call of softfax on two ptys, over two Class 1 modems of t31.c on a line that
 * cuts the first page, with a line at the head of each page. Page N is FOLDER/paper-N.pbm, and has to be stored as FOLDER/stored-N.pbm. TIME
 * is the machine's clock all along, in seconds since 1970. Status 1: it isn't so.
 *
 * header-test --words WORDS: softfax with these words, until it would open a tty or begin a call; its status, 2 or 1, or 0 if it would.
 *
 * header.py makes the files. */
#include "call.h"
#include "on_pty.h"
#include <stdio.h>
#include <stdlib.h>
#include <string.h>
#include <time.h>

enum { ROOM = 200 };

static int64_t clock_is;

/* Linked with --wrap=time. */
time_t __wrap_time(time_t *out);
time_t __wrap_time(time_t *out)
{
    (void)out;
    return (time_t)clock_is;
}

/* Reads a raw PBM file as header.py writes it. */
static int read_paper(paper *out, const char *folder, const char *what, unsigned number)
{
    char name[ROOM], line[40];
    unsigned width = 0, rows = 0;
    snprintf(name, sizeof name, "%s/%s-%u.pbm", folder, what, number);
    FILE *file = fopen(name, "rb");
    if (file == NULL) return perror(name), 0;
    int is_whole = fgets(line, sizeof line, file) != NULL && fgets(line, sizeof line, file) != NULL
        && sscanf(line, "%u %u", &width, &rows) == 2 && paper_new(out, width, rows, 0);
    size_t octets = is_whole ? (size_t)out->stride * rows : 0;
    is_whole = is_whole && fread(out->pixels, 1, octets, file) == octets;
    fclose(file);
    return is_whole;
}

static int try_call(const trial *kind, const char *folder)
{
    static const behind_way WAY = {&soft_of_bits, {0}};
    party caller, answerer;
    outcome came = {0};
    if (!trial_on_pty(&caller, kind, 1, &WAY, folder)) return 0;
    if (!trial_on_pty(&answerer, kind, 0, &WAY, folder)) {
        caller.leave(caller.it, &came);
        return 0;
    }
    trial_run(&caller, &answerer, kind, &came);
    int is_right = trial_went_well(kind, &came);
    if (!is_right) {
        fprintf(stderr, "caller %s, answerer %s, confirmed %u, equal %u, wrong %u\n", came.caller, came.answerer, (uint32_t)came.confirmed,
            came.equal, came.wrong);
    }
    return is_right;
}

static int try_words(int argc, char **argv)
{
    options given = {.modems = G3_V17, .coding = G3_MMR, .rings = 1};
    static call it;
    if (!options_read(&given, argc, argv)) return 2;
    it.given = &given;
    int is_well = call_prepare(&it);
    call_free(&it);
    return !is_well;
}

int main(int argc, char **argv)
{
    static paper papers[MOST_PAGES], stored[MOST_PAGES];
    if (argc > 1 && strcmp(argv[1], "--words") == 0) return try_words(argc - 1, argv + 1);
    uint32_t pages = argc == 8 ? (uint32_t)atoi(argv[7]) : 0;
    if (pages < 1 || pages > MOST_PAGES) return fprintf(stderr, "usage: header-test FOLDER TIME TEXT FONT RESOLUTION CODE PAGES\n"), 2;
    for (uint32_t i = 0; i < pages; i++) {
        if (!read_paper(&papers[i], argv[1], "paper", i + 1) || !read_paper(&stored[i], argv[1], "stored", i + 1)) return 1;
    }
    clock_is = (int64_t)strtoul(argv[2], NULL, 10);
    trial kind = {.line = {.name = "the page is cut", .cut = 3, .from = 400, .lasts = 100}, .modems = G3_V29, .pages = pages, .limit = 2,
        .coding = strcmp(argv[6], "mh") == 0 ? G3_MH : G3_MMR, .papers = papers, .stored = stored, .header = argv[3], .font = argv[4],
        .standard = strcmp(argv[5], "standard") == 0};
    int is_right = try_call(&kind, argv[1]);
    for (uint32_t i = 0; i < pages; i++) paper_free(&papers[i]), paper_free(&stored[i]);
    return !is_right;
}
