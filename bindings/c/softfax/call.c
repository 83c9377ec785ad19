#include "call.h"
#include "record.h"
#include "stop.h"
#include "told.h"
#include <stdio.h>

static int fails(const char *why)
{
    told_add("softfax: %s", why);
    told_end();
    return 0;
}

/* Moves the pages to a document, each with its header, if they have one: a page is numbered by its place in the document. */
static g3_status make_document(call *it)
{
    int has_header = it->given->header != NULL;
    g3_status status = g3_document_new(&it->document);
    if (has_header) header_stamp(&it->header);
    for (int i = 0; status == G3_OK && i < it->count; i++) {
        pages_sent *sent = &it->sent[i];
        if (has_header) status = header_paint(&it->header, i + 1, it->count, &sent->page);
        if (status == G3_OK) status = g3_page_size(&sent->page, &sent->size);
        if (status == G3_OK) status = g3_document_push(&it->document, &sent->page);
    }
    return status;
}

int call_prepare(call *it)
{
    const options *given = it->given;
    if (given->answers) return pages_is_folder(given->folder);
    for (int i = 0; i < given->count; i++) {
        if (!pages_add(given->pages[i], given->fine, it->sent, &it->count)) return 0;
    }
    /* pages with a header are painted when the call begins: it has its time */
    if (given->header != NULL) return header_new(&it->header, given->header, given->font != NULL ? given->font : HEADER_FONT);
    g3_status status = make_document(it);
    return status == G3_OK || fails(g3_status_text(status));
}

void call_fails(call *it, const char *name, const char *why)
{
    if (it->why != NULL) return;
    snprintf(it->fault, sizeof it->fault, "%.200s: %.190s", name, why);
    it->why = it->fault;
}

void call_rings(call *it, const char *number, const char *name)
{
    if (it->given->calls) return;
    snprintf(it->caller_number, sizeof it->caller_number, "%s", number);
    snprintf(it->caller_name, sizeof it->caller_name, "%s", name);
    record_call record = {it->number, it->caller_number, it->caller_name};
    if (it->given->json) record_call_json(&record);
    else record_call_words(&record);
}

static g3_status make_station(call *it, uint32_t modems)
{
    const options *given = it->given;
    uint32_t has = given->modems < modems ? given->modems : modems;
    g3_caps caps = {.modems = has, .t6 = given->coding == G3_MMR, .fine = 1, .widest = 2432, .limit = 2};
    g3_wish wish = {.modems = has, .coding = given->coding, .frame = 256};
    if (!given->calls) return g3_answerer_new(&it->station, &caps);
    g3_status status = given->header != NULL ? make_document(it) : G3_OK;
    return status == G3_OK ? g3_caller_new(&it->station, &it->document, &wish) : status;
}

int call_begin(call *it, uint32_t modems, const modem_kind *kind, modem *modem)
{
    const options *given = it->given;
    terminal_pages pages = {pages_keep, &it->folder};
    g3_status status = make_station(it, modems);
    if (status != G3_OK) return fails(g3_status_text(status));
    it->terminal = terminal_new(&it->station, given->calls ? NULL : &pages, kind, modem);
    if (it->terminal == NULL) return fails(g3_status_text(G3_NO_MEMORY));
    it->folder = (pages_folder){.name = given->folder, .is_of_calls = given->most_calls != 0, .most_pages = given->most_pages,
        .most_octets = given->most_octets, .json = given->json, .square = given->square, .figures = terminal_figures(it->terminal)};
    stop_call_begins();
    if (!given->refuses_ctc) terminal_answer_ctc(it->terminal);
    if (given->identity != NULL) terminal_identify(it->terminal, given->identity);
    if (given->tells) terminal_tell(it->terminal, given->calls ? "caller" : "answerer", told);
    return 1;
}

/* Writes a record of each page that was confirmed since the last one. */
static void note_confirmed(call *it)
{
    g3_state state = G3_INIT(g3_state);
    if (!it->given->calls || !it->given->json || g3_terminal_state(&it->station, &state) != G3_OK) return;
    for (; it->confirmed < state.pages && it->confirmed < (uint64_t)it->count; it->confirmed++) {
        const pages_sent *sent = &it->sent[it->confirmed];
        record_page record = {"confirmed", it->confirmed + 1, sent->file, sent->image, sent->size.width, sent->size.rows,
            sent->size.fine, 0, terminal_figures(it->terminal)};
        record_page_json(&record);
    }
}

int call_heed(call *it)
{
    int level = stop_level(it->millis);
    if (level == it->stop) return level;
    it->stop = level;
    if (it->terminal == NULL || terminal_is_over(it->terminal)) return level;
    if (level == STOP_IN_ORDER) g3_terminal_stop(&it->station);
    if (level == STOP_SOON) terminal_hurry(it->terminal);
    if (level == STOP_AT_ONCE) terminal_lose(it->terminal);
    return level;
}

void call_step(call *it, const int16_t *in, int16_t *out)
{
    it->millis += SLICE_MILLIS;
    call_heed(it);
    terminal_step(it->terminal, in, out);
    note_confirmed(it);
}

int call_is_over(const call *it)
{
    return it->terminal != NULL && terminal_is_over(it->terminal);
}

/* Why a call has ended so, in words, if that is known. A normal end has none, whatever came after it, as NO CARRIER. */
static const char *why(call *it, uint32_t end)
{
    const char *left_out = it->terminal != NULL ? terminal_left_out(it->terminal) : NULL;
    if (end == G3_END_NORMAL) return NULL;
    if (it->terminal != NULL && terminal_why(it->terminal) != NULL) return terminal_why(it->terminal);
    if (it->folder.fault[0] != 0) return it->folder.fault;
    if (it->why != NULL) return it->why;
    if (end == G3_END_STOPPED || it->stop != STOP_NOT) return stop_why();
    if (left_out == NULL) return NULL;
    snprintf(it->fault, sizeof it->fault, "%s, which isn't answered", left_out);
    return it->fault;
}

int call_end(call *it)
{
    static const char *const ENDS[] = {
        "no-end", "normal", "no-answer", "not-compatible", "training", "no-reply", "unreadable", "still-busy", "peer-left", "bad-page",
        "page-too-long", "stopped", "line-lost"};
    static const g3_figures NONE;
    const options *given = it->given;
    g3_state state = G3_INIT(g3_state);
    record_end record = {"no-call", given->calls ? "confirmed" : "pages", it->folder.kept, &NONE, NULL,
        {it->number, it->caller_number, it->caller_name}, it->folder.own, (uint64_t)it->millis / 1000};
    if (it->terminal != NULL && g3_terminal_state(&it->station, &state) == G3_OK && state.end < sizeof ENDS / sizeof ENDS[0]) {
        record.end = ENDS[state.end];
        if (given->calls) record.pages = state.pages;
        record.figures = terminal_figures(it->terminal);
        if (terminal_why(it->terminal) != NULL) record.end = "refused";
    }
    record.why = why(it, state.end);
    if (given->json) record_end_json(&record);
    else record_end_words(&record);
    stop_call_ends();
    return state.end == G3_END_NORMAL;
}

void call_free(call *it)
{
    terminal_free(it->terminal);
    g3_terminal_free(&it->station);
    g3_document_free(&it->document);
    for (int i = 0; i < it->count; i++) g3_page_free(&it->sent[i].page);
    it->terminal = NULL;
}
