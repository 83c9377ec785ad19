#include "trial.h"
#include "terminal.h"
#include <stdio.h>
#include <stdlib.h>
#include <string.h>

enum { LONGEST = 900000, TAIL = 1000 }; /* milliseconds of a call, and of what is heard after both have hung up */

typedef struct ours {
    const trial *kind;
    int calls;
    g3_terminal station;
    modem *modem; /* that is freed with it; NULL if it is the program's */
    terminal *terminal;
    int64_t now;
    outcome counted; /* the pages that were kept */
} ours;

void trial_judge(const trial *kind, outcome *out, uint32_t width, uint32_t rows, const uint8_t *pixels)
{
    uint32_t next = out->equal + out->wrong;
    const paper *wanted = kind->stored != NULL ? kind->stored : kind->papers;
    int is_equal = next < kind->pages && paper_is(&wanted[next], width, rows, pixels);
    out->equal += is_equal;
    out->wrong += !is_equal;
}

/* Compares a stored page with its paper. It is kept in any case, unless memory is refused. */
static int keep(void *user, g3_page *page)
{
    ours *it = user;
    g3_size size = G3_INIT(g3_size);
    uint64_t count = 0;
    if (g3_page_size(page, &size) != G3_OK) return 0;
    uint64_t stride = (size.width + 7) / 8, room = stride * size.rows;
    uint8_t *pixels = malloc(room + 1);
    int is_there = pixels != NULL && g3_page_write_raster(page, stride, pixels, room, &count) == G3_OK;
    if (is_there) trial_judge(it->kind, &it->counted, size.width, size.rows, pixels);
    free(pixels);
    return is_there;
}

static g3_status new_document(const trial *kind, g3_document *out)
{
    g3_status status = g3_document_new(out);
    for (uint32_t i = 0; status == G3_OK && i < kind->pages; i++) {
        const paper *paper = &kind->papers[i];
        g3_raster raster = {.stride = paper->stride, .width = paper->width, .rows = paper->rows, .fine = 1};
        g3_page page = G3_EMPTY;
        status = g3_page_read_raster(paper->pixels, (size_t)paper->stride * paper->rows, &raster, &page);
        if (status == G3_OK) status = g3_document_push(out, &page);
        g3_page_free(&page);
    }
    return status;
}

static g3_status new_station(const trial *kind, int calls, g3_terminal *out)
{
    g3_caps caps = {.modems = kind->modems, .t6 = kind->coding == G3_MMR, .fine = 1, .widest = 2432, .limit = kind->limit};
    g3_wish wish = {.modems = kind->modems, .coding = kind->coding, .frame = 256};
    g3_document document = G3_EMPTY;
    if (!calls) return g3_answerer_new(out, &caps);
    g3_status status = new_document(kind, &document);
    if (status == G3_OK) status = g3_caller_new(out, &document, &wish);
    g3_document_free(&document);
    return status;
}

static void ours_step(void *user, const int16_t *in, int16_t *out)
{
    ours *it = user;
    int stops = it->calls ? it->kind->stops : it->kind->answerer_stops;
    it->now += SLICE_MILLIS;
    if (stops == 1 && it->now == it->kind->stops_at) (void)g3_terminal_stop(&it->station);
    if (stops == 2 && it->now == it->kind->stops_at) terminal_hurry(it->terminal);
    terminal_step(it->terminal, in, out);
}

static int ours_is_over(void *user)
{
    ours *it = user;
    return terminal_is_over(it->terminal);
}

const char *trial_ending(const g3_terminal *station, const terminal *it)
{
    static const char *const ENDS[] = {
        "no end", "normal", "no answer", "not compatible", "training", "no reply", "unreadable", "still busy", "peer left", "bad page",
        "page too long", "stopped", "line lost"};
    g3_state state = G3_INIT(g3_state);
    if (g3_terminal_state(station, &state) != G3_OK) return "no state";
    if (terminal_why(it) != NULL) return "refused";
    return state.end < sizeof ENDS / sizeof ENDS[0] ? ENDS[state.end] : "another end";
}

static const char *ours_ending(void *user)
{
    ours *it = user;
    return trial_ending(&it->station, it->terminal);
}

static void ours_leave(void *user, outcome *out)
{
    ours *it = user;
    g3_state state = G3_INIT(g3_state);
    if (it->calls && g3_terminal_state(&it->station, &state) == G3_OK) out->confirmed = state.pages;
    out->equal += it->counted.equal;
    out->wrong += it->counted.wrong;
    out->counted[it->calls] = *terminal_figures(it->terminal);
    terminal_free(it->terminal);
    modem_of_sound.free(it->modem);
    g3_terminal_free(&it->station);
    free(it);
}

static void tell_line(const char *text)
{
    fprintf(stderr, "%s\n", text);
}

int trial_ours_by(party *out, const trial *kind, int calls, const modem_kind *with, modem *modem)
{
    static const ours fresh;
    ours *it = malloc(sizeof *it);
    if (it == NULL) return 0;
    *it = fresh;
    it->kind = kind;
    it->calls = calls;
    terminal_pages pages = {keep, it};
    if (new_station(kind, calls, &it->station) == G3_OK) {
        it->terminal = terminal_new(&it->station, calls ? NULL : &pages, with, modem);
    }
    if (it->terminal != NULL) {
        party mine = {it, ours_step, ours_is_over, ours_ending, ours_leave};
        if (kind->ctc) terminal_answer_ctc(it->terminal);
        if (kind->identity != NULL) terminal_identify(it->terminal, kind->identity);
        if (kind->tells != NULL) terminal_tell(it->terminal, calls ? "caller" : "answerer", tell_line);
        *out = mine;
        return 1;
    }
    g3_terminal_free(&it->station);
    free(it);
    return 0;
}

int trial_ours(party *out, const trial *kind, int calls)
{
    modem *modem = modem_new();
    if (modem == NULL) return 0;
    if (trial_ours_by(out, kind, calls, &modem_of_sound, modem)) return ((ours *)out->it)->modem = modem, 1;
    modem_of_sound.free(modem);
    return 0;
}

void trial_run(party *caller, party *answerer, const trial *kind, outcome *out)
{
    int16_t said[SLICE] = {0}, replied[SLICE] = {0}, to_caller[SLICE] = {0}, to_answerer[SLICE] = {0};
    uint32_t millis = 0, tail = 0;
    line line;
    line_new(&line, &kind->line, kind->seed);
    line.answerer.signals = kind->ced_joins_dis;
    for (; millis < LONGEST && tail < TAIL; millis += SLICE_MILLIS) {
        caller->step(caller->it, to_caller, said);
        answerer->step(answerer->it, to_answerer, replied);
        line_carry(&line, said, replied, to_caller, to_answerer);
        if (caller->is_over(caller->it) && answerer->is_over(answerer->it)) tail += SLICE_MILLIS;
    }
    memset(out, 0, sizeof *out);
    out->caller = caller->ending(caller->it);
    out->answerer = answerer->ending(answerer->it);
    out->seconds = millis / 1000;
    caller->leave(caller->it, out);
    answerer->leave(answerer->it, out);
}

int trial_went_well(const trial *kind, const outcome *it)
{
    return strcmp(it->caller, "normal") == 0 && strcmp(it->answerer, "normal") == 0 && it->equal == kind->pages && it->wrong == 0
        && it->confirmed == kind->pages;
}

int trial_is_broken(const outcome *it)
{
    return it->wrong > 0 || it->confirmed > it->equal;
}
