/* memory-test [STEP [FIRST_STEP]]: a call of the terminal with itself over modems of plain bits, and one behind Class 1 modems of t31.c,
 * with every growth of memory refused in turn; in the second one every STEP-th, if that is said, since most of its growths are those of
 * t31.c, and in the first one every FIRST_STEP-th. Status 1: a page is stored that isn't the document's, a confirmed one is missing, an
 * end doesn't hang up, or a block is left. Linked with --wrap=malloc, --wrap=realloc and --wrap=free. */
#include "behind.h"
#include "../../tests/heap.h"
#include <stdio.h>
#include <stdlib.h>
#include <string.h>

enum { ROWS = 8, PAGES = 2 };

static const behind_way BEHIND = {&soft_of_bits, {0}};

static int begin(party *out, const trial *kind, int calls, const behind_way *way)
{
    return way != NULL ? trial_behind(out, kind, calls, way) : trial_ours(out, kind, calls);
}

/* The call; whether nothing is wrong. *well: whether it completed, too. A call that can't begin is no fault. */
static int is_right(const trial *kind, const behind_way *way, int *well)
{
    party caller, answerer;
    outcome came;
    *well = 0;
    if (!begin(&caller, kind, 1, way)) return 1;
    if (!begin(&answerer, kind, 0, way)) {
        memset(&came, 0, sizeof came);
        caller.leave(caller.it, &came);
        return 1;
    }
    trial_run(&caller, &answerer, kind, &came);
    *well = trial_went_well(kind, &came);
    return !trial_is_broken(&came) && strcmp(came.caller, "no end") != 0 && strcmp(came.answerer, "no end") != 0;
}

/* Refuses each growth of a call in turn; returns how many were wrong. */
static unsigned long refuse_each(const trial *kind, const behind_way *way, unsigned long step, const char *name)
{
    unsigned long growths, n, count = 0, complete = 0, wrong = 0;
    int well = 0;
    grown = refused = 0;
    wrong += !is_right(kind, way, &well) || !well;
    growths = grown;
    for (n = 1; n <= growths; n += step, count++) {
        long before = blocks;
        grown = 0;
        refused = n;
        if (!is_right(kind, way, &well) || blocks != before) {
            printf("%s, growth %lu: wrong, %ld blocks left\n", name, n, blocks - before);
            wrong++;
        }
        complete += (unsigned long)well;
    }
    printf("%s: %lu of %lu growths were refused in turn: %lu calls complete\n", name, count, growths, complete);
    return wrong + (growths < 100);
}

int main(int argc, char **argv)
{
    unsigned long steps[2];
    for (int i = 0; i < 2; i++) steps[i] = argc > i + 1 && atoi(argv[i + 1]) > 0 ? (unsigned long)atoi(argv[i + 1]) : 1;
    paper papers[PAGES];
    for (uint32_t i = 0; i < PAGES; i++) {
        if (!paper_new(&papers[i], 1728, ROWS, i + 1)) return 1;
    }
    trial kind = {.line = {.name = "clean"}, .modems = G3_V17, .coding = G3_MMR, .pages = PAGES, .limit = 2, .papers = papers,
        .identity = "+49 30 1234"};
    unsigned long wrong = refuse_each(&kind, NULL, steps[1], "plain bits") + refuse_each(&kind, &BEHIND, steps[0], "Class 1");
    for (uint32_t i = 0; i < PAGES; i++) paper_free(&papers[i]);
    return wrong > 0;
}
