#include "stopped.h"
#include <stdio.h>
#include <string.h>

enum { AMID = 25000 };                 /* milliseconds of our end's time: the page goes out */
enum { SOON = 40, AFTER_BLOCK = 80 };  /* seconds */

/* Runs a call; returns whether it ended as it should. */
static int try_call(stopped_begin *begin, const trial *kind)
{
    party caller, answerer;
    outcome came;
    if (!begin(&caller, kind, 1)) return 0;
    if (!begin(&answerer, kind, 0)) {
        memset(&came, 0, sizeof came);
        caller.leave(caller.it, &came);
        return 0;
    }
    trial_run(&caller, &answerer, kind, &came);
    int hurries = kind->stops == 2, calls = kind->stops != 0;
    int is_in_order = strcmp(calls ? came.caller : came.answerer, "stopped") == 0
        && strcmp(calls ? came.answerer : came.caller, "peer left") == 0;
    int is_timely = hurries ? came.seconds < SOON : came.seconds > AFTER_BLOCK;
    int is_right = is_in_order && is_timely && came.equal + came.wrong == 0 && came.confirmed == 0;
    if (!is_right || kind->tells != NULL) {
        fprintf(stderr, "stopped: caller %s, answerer %s, %u s\n", came.caller, came.answerer, came.seconds);
    }
    return is_right;
}

int stopped_try(stopped_begin *begin, const char *tells)
{
    static const struct { int caller, answerer; } STOPS[] = {{1, 0}, {2, 0}, {0, 1}};
    paper page;
    int right = 0, count = sizeof STOPS / sizeof STOPS[0];
    if (!paper_new(&page, 2432, 1500, 1)) return 0;
    for (int i = 0; i < count; i++) {
        trial kind = {.line = {.name = "stopped"}, .modems = G3_V27TER, .coding = G3_MH, .pages = 1, .limit = 1, .papers = &page,
            .stops = STOPS[i].caller, .answerer_stops = STOPS[i].answerer, .stops_at = AMID, .tells = tells};
        right += try_call(begin, &kind);
    }
    paper_free(&page);
    printf("stopped amid a page: %d of %d calls end in order\n", right, count);
    return right == count;
}
