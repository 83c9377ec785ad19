/* What wrong use of documents and terminals answers. Prints nothing and ends with 0 where each status is the right one. */
#include "statuses.h"

static void documents(void)
{
    g3_document d = G3_EMPTY;
    g3_page a = G3_EMPTY, narrow = G3_EMPTY;
    g3_terminal t = G3_EMPTY;
    g3_wish wish = {G3_V17, G3_MMR, 256}, odd = {4, G3_MMR, 256}, other = {G3_V17, 3, 256}, large = {G3_V17, G3_MMR, 128};
    uint64_t n = 1;
    IS(G3_EMPTY_HANDLE, g3_document_pages(&d, &n));
    IS(G3_OK, g3_page_new(&a, 1728, 1));
    IS(G3_EMPTY_HANDLE, g3_document_push(&d, &a));
    IS(G3_OK, g3_document_new(&d));
    IS(G3_FULL_HANDLE, g3_document_new(&d));
    IS(G3_NOTHING, g3_caller_new(&t, &d, &wish));
    IS(G3_NO_ROWS, g3_document_push(&d, &a));
    IS(G3_OK, g3_page_push_row(&a, octets, 216));
    IS(G3_OTHER_HANDLE, g3_document_push((g3_document *)&a, (g3_page *)&d));
    IS(G3_OK, g3_document_push(&d, &a));
    IS(G3_EMPTY_HANDLE, g3_document_push(&d, &a)); /* the page has moved */
    IS(G3_NO_ADDRESS, g3_document_pages(&d, NULL));
    IS(G3_OK, g3_document_pages(&d, &n));
    IS(1, (g3_status)n);
    SPARES(odd.spare, g3_caller_new(&t, &d, &odd));
    IS(G3_BAD_CHOICE, g3_caller_new(&t, &d, &odd));
    IS(G3_BAD_CHOICE, g3_caller_new(&t, &d, &other));
    IS(G3_BAD_CHOICE, g3_caller_new(&t, &d, &large));
    IS(G3_NO_ADDRESS, g3_caller_new(&t, &d, NULL));
    IS(G3_OK, g3_page_new(&narrow, 1727, 1));
    IS(G3_OK, g3_page_push_row(&narrow, octets, 216));
    IS(G3_OTHER_HANDLE, g3_caller_new(&t, (g3_document *)&narrow, &wish));
    IS(G3_OK, g3_document_push(&d, &narrow));
    IS(G3_NOT_CALLABLE, g3_caller_new(&t, &d, &wish));
    g3_document_free(&d); g3_document_free(&d); g3_page_free(&narrow);
    IS(G3_EMPTY_HANDLE, g3_caller_new(&t, &d, &wish));
}

/* A document of three pages comes back after its call, and goes into another one from a page on. */
static void redials(void)
{
    g3_document d = G3_EMPTY, other = G3_EMPTY;
    g3_page a = G3_EMPTY;
    g3_terminal t = G3_EMPTY, answerer = G3_EMPTY;
    g3_caps caps = {G3_V17, 1, 1, 2432, 1};
    g3_wish wish = {G3_V17, G3_MMR, 256}, odd = {4, G3_MMR, 256};
    uint64_t n = 77, count = 0;
    IS(G3_EMPTY_HANDLE, g3_terminal_take_document(&t, &d, &n));
    IS(G3_EMPTY_HANDLE, g3_terminal_take_document(NULL, &d, &n));
    IS(G3_EMPTY_HANDLE, g3_terminal_take_document(&t, NULL, &n));
    IS(G3_EMPTY_HANDLE, g3_caller_new_from(&t, &d, 0, &wish));
    IS(G3_EMPTY_HANDLE, g3_document_code(&d, G3_MMR));
    IS(G3_EMPTY_HANDLE, g3_document_code(NULL, G3_MMR));
    IS(G3_OK, g3_document_new(&d));
    IS(G3_BAD_CHOICE, g3_document_code(&d, 3));
    IS(G3_NOTHING, g3_document_code(&d, G3_MMR));
    IS(G3_NOTHING, g3_caller_new_from(&t, &d, 0, &wish));
    IS(G3_NOTHING, g3_caller_new_from(&t, &d, UINT64_MAX, &wish));
    for (uint32_t number = 0; number < 3; number++) {
        IS(G3_OK, g3_page_new(&a, number == 0 ? 8 : 2048, 1));
        IS(G3_OK, g3_page_push_row(&a, octets, 256));
        IS(G3_OK, g3_document_push(&d, &a));
    }
    IS(G3_OK, g3_document_code(&d, G3_MH));
    IS(G3_OK, g3_document_code(&d, G3_MMR));
    IS(G3_BAD_CHOICE, g3_document_code(&d, 0));
    IS(G3_NOT_CALLABLE, g3_caller_new(&t, &d, &wish));
    IS(G3_NOT_CALLABLE, g3_caller_new_from(&t, &d, 0, &wish)); /* its first page, which isn't sent from 1 on */
    IS(G3_NOTHING, g3_caller_new_from(&t, &d, 3, &wish));
    IS(G3_BAD_CHOICE, g3_caller_new_from(&t, &d, 1, &odd));
    SPARES(odd.spare, g3_caller_new_from(&t, &d, 1, &odd));
    IS(G3_NO_ADDRESS, g3_caller_new_from(&t, &d, 1, NULL));
    IS(G3_EMPTY_HANDLE, g3_caller_new_from(NULL, &d, 1, &wish));
    IS(G3_OK, g3_document_pages(&d, &count));
    IS(3, (g3_status)count);
    IS(G3_OK, g3_caller_new_from(&t, &d, 1, &wish));
    IS(1, d.at == NULL);
    IS(G3_FULL_HANDLE, g3_caller_new_from(&t, &other, 1, &wish));
    IS(G3_OTHER_HANDLE, g3_document_code((g3_document *)&t, G3_MMR));
    IS(G3_NO_ADDRESS, g3_terminal_take_document(&t, &d, NULL));
    IS(G3_NOTHING, g3_terminal_take_document(&t, &d, &n)); /* the call goes on */
    IS(1, n == 77 && d.at == NULL && t.at != NULL);
    IS(G3_OK, g3_document_new(&other));
    IS(G3_FULL_HANDLE, g3_terminal_take_document(&t, &other, &n));
    IS(G3_OK, g3_terminal_stop(&t)); /* the call has ended, and DCN waits to be sent */
    IS(G3_FULL_HANDLE, g3_terminal_take_document(&t, &other, &n));
    IS(G3_OTHER_HANDLE, g3_terminal_take_document((g3_terminal *)&other, &d, &n));
    IS(G3_OK, g3_terminal_take_document(&t, &d, &n));
    IS(1, n == 0 && t.at == NULL);
    IS(G3_OK, g3_document_pages(&d, &count));
    IS(2, (g3_status)count);
    IS(G3_OK, g3_answerer_new(&answerer, &caps));
    IS(G3_OK, g3_terminal_lost(&answerer));
    IS(G3_OTHER_HANDLE, g3_terminal_take_document(&answerer, (g3_document *)&t, &n));
    IS(G3_OK, g3_caller_new(&t, &d, &wish));
    g3_document_free(&other); g3_terminal_free(&t); g3_terminal_free(&answerer);
}

static void terminals(void)
{
    g3_terminal t = G3_EMPTY;
    g3_octets o = G3_EMPTY;
    g3_page p = G3_EMPTY;
    g3_burst burst = G3_INIT(g3_burst);
    g3_state state = G3_INIT(g3_state);
    g3_caps caps = {G3_V17, 1, 1, 2432, 1}, odd = {0, 1, 1, 2432, 1}, wide = {G3_V17, 1, 1, 2433, 1}, none = {G3_V17, 1, 1, 2432, 0};
    SPARES(odd.spare, g3_answerer_new(&t, &odd));
    IS(G3_BAD_CHOICE, g3_answerer_new(&t, &odd));
    IS(G3_BAD_CHOICE, g3_answerer_new(&t, &wide));
    IS(G3_BAD_CHOICE, g3_answerer_new(&t, &none));
    IS(G3_NO_ADDRESS, g3_answerer_new(&t, NULL));
    IS(G3_EMPTY_HANDLE, g3_terminal_hear(&t, octets, 1));
    IS(G3_OK, g3_answerer_new(&t, &caps));
    IS(G3_FULL_HANDLE, g3_answerer_new(&t, &caps));
    IS(G3_NO_ADDRESS, g3_terminal_hear(&t, NULL, 1));
    IS(G3_OK, g3_terminal_hear(&t, NULL, 0));
    IS(G3_BAD_CHOICE, g3_terminal_wait_over(&t, 3));
    IS(G3_OK, g3_terminal_wait_over(&t, G3_T4)); /* it doesn't run: nothing changes */
    IS(0, g3_wait_millis(3));
    IS(35000, g3_wait_millis(G3_T1));
    IS(G3_NOTHING, g3_terminal_take_page(&t, &p));
    IS(G3_NO_ADDRESS, g3_terminal_next_burst(&t, &o, NULL));
    SIZES(burst, g3_terminal_next_burst(&t, &o, &burst)); /* nothing is sent */
    IS(G3_OK, g3_terminal_next_burst(&t, &o, &burst));
    IS(1, burst.carrier == G3_V21 && burst.check == 0 && burst.last == 1);
    IS(G3_FULL_HANDLE, g3_terminal_next_burst(&t, &o, &burst));
    g3_octets_free(&o);
    IS(G3_NOTHING, g3_terminal_next_burst(&t, &o, &burst));
    IS(G3_NO_ADDRESS, g3_terminal_state(&t, NULL));
    SIZES(state, g3_terminal_state(&t, &state));
    IS(G3_OK, g3_terminal_lost(&t));
    IS(G3_OK, g3_terminal_stop(&t)); /* it has ended, and stays as it ended */
    IS(G3_OK, g3_terminal_state(&t, &state));
    IS(G3_END_LINE_LOST, state.end);
    IS(0, state.wait);
    IS(G3_OTHER_HANDLE, g3_page_write_pbm((g3_page *)&t, &o));
    IS(G3_OK, g3_terminal_hang_up(&t)); /* DCN is left, also of a call that has ended */
    IS(G3_OK, g3_terminal_next_burst(&t, &o, &burst));
    IS(1, burst.carrier == G3_V21 && burst.check == 0 && burst.last == 1);
    IS(G3_OTHER_HANDLE, g3_terminal_hang_up((g3_terminal *)&o));
    g3_octets_free(&o);
    IS(G3_NOTHING, g3_terminal_next_burst(&t, &o, &burst));
    g3_terminal_free(&t); g3_terminal_free(&t); g3_terminal_free(NULL);
    IS(G3_EMPTY_HANDLE, g3_terminal_stop(&t));
    IS(G3_EMPTY_HANDLE, g3_terminal_hang_up(&t));
    IS(G3_EMPTY_HANDLE, g3_terminal_hang_up(NULL));
}

/* The clock of an answerer: T2 runs from the first quiet tick, a carrier ends it, and DIS is sent again when it is over. */
static void clocks(void)
{
    g3_terminal t = G3_EMPTY;
    g3_octets o = G3_EMPTY;
    g3_burst burst = G3_INIT(g3_burst);
    g3_state state = G3_INIT(g3_state);
    g3_caps caps = {G3_V17, 1, 1, 2432, 1};
    uint64_t at = 77;
    IS(G3_EMPTY_HANDLE, g3_terminal_tick(&t, 0, G3_QUIET));
    IS(G3_EMPTY_HANDLE, g3_terminal_tick(NULL, 0, G3_QUIET));
    IS(G3_EMPTY_HANDLE, g3_terminal_due(&t, &at));
    IS(G3_OK, g3_answerer_new(&t, &caps));
    IS(G3_NO_ADDRESS, g3_terminal_due(&t, NULL));
    IS(G3_BAD_CHOICE, g3_terminal_tick(&t, 0, 0));
    IS(G3_BAD_CHOICE, g3_terminal_tick(&t, 0, 4));
    IS(G3_OK, g3_terminal_next_burst(&t, &o, &burst));
    g3_octets_free(&o);
    IS(G3_OK, g3_terminal_tick(&t, 1000, G3_CARRIER));
    IS(G3_NOTHING, g3_terminal_due(&t, &at)); /* no wait ends on a carrier */
    IS(77, (g3_status)at);
    IS(G3_BAD_CHOICE, g3_terminal_tick(&t, 999, G3_QUIET));
    IS(G3_OK, g3_terminal_tick(&t, 2000, G3_QUIET));
    IS(G3_OK, g3_terminal_due(&t, &at));
    IS(9000, (g3_status)at); /* T2, 7 s from now */
    IS(G3_OK, g3_terminal_tick(&t, 8999, G3_QUIET));
    IS(G3_NOTHING, g3_terminal_next_burst(&t, &o, &burst));
    IS(G3_OK, g3_terminal_tick(&t, 9000, G3_CARRIER));
    IS(G3_OK, g3_terminal_tick(&t, 10000, G3_QUIET));
    IS(G3_OK, g3_terminal_tick(&t, 16999, G3_QUIET));
    IS(G3_NOTHING, g3_terminal_next_burst(&t, &o, &burst));
    IS(G3_OK, g3_terminal_tick(&t, 17000, G3_QUIET));
    IS(G3_OK, g3_terminal_next_burst(&t, &o, &burst));
    IS(1, burst.carrier == G3_V21 && burst.last == 1);
    g3_octets_free(&o);
    IS(G3_OK, g3_terminal_tick(&t, 18000, G3_QUIET));
    IS(G3_OK, g3_terminal_due(&t, &at));
    IS(25000, (g3_status)at); /* T2 again, from the end of the burst */
    IS(G3_OK, g3_terminal_lost(&t));
    IS(G3_NOTHING, g3_terminal_due(&t, &at));
    IS(25000, (g3_status)at);
    IS(G3_OK, g3_terminal_state(&t, &state));
    IS(G3_END_LINE_LOST, state.end);
    g3_terminal_free(&t);
}

/* The one burst of the turn, which is sent, is taken. */
static void sent(g3_terminal *t)
{
    g3_octets o = G3_EMPTY;
    g3_burst burst = G3_INIT(g3_burst);
    IS(G3_OK, g3_terminal_next_burst(t, &o, &burst));
    IS(1, burst.carrier == G3_V21 && burst.last == 1);
    g3_octets_free(&o);
    IS(G3_NOTHING, g3_terminal_next_burst(t, &o, &burst));
}

static void agreed(void)
{
    g3_terminal t = G3_EMPTY, empty = G3_EMPTY;
    g3_caps caps = {G3_V17, 1, 1, 2432, 1};
    g3_state state = G3_INIT(g3_state);
    g3_progress far = G3_INIT(g3_progress);
    g3_params params = {sizeof params, {7, 7, 7, 7, 7}};
    g3_params none = G3_INIT(g3_params);
    g3_signal dcs = G3_INIT(g3_signal), peer = G3_INIT(g3_signal), unknown = G3_INIT(g3_signal);
    uint64_t n = 0;
    dcs.kind = G3_DCS, dcs.dcs.carrier = G3_V29_9600, dcs.dcs.width = 1728, dcs.dcs.coding = G3_MMR, dcs.dcs.frame = 64;
    peer.kind = 77;
    IS(G3_OK, g3_answerer_new(&t, &caps));
    IS(G3_EMPTY_HANDLE, g3_terminal_hear_frame(&empty, octets, 3));
    IS(G3_BAD_LENGTH, g3_terminal_hear_frame(&t, octets, 2));
    IS(G3_BAD_LENGTH, g3_terminal_hear_frame(&t, octets, 301));
    IS(G3_NO_ADDRESS, g3_terminal_hear_frame(&t, NULL, 3));
    IS(G3_EMPTY_HANDLE, g3_terminal_progress(&empty, &far));
    IS(G3_NO_ADDRESS, g3_terminal_progress(&t, NULL));
    SIZES(far, g3_terminal_progress(&t, &far));
    IS(G3_OK, g3_terminal_progress(&t, &far));
    IS(0, far.pages + far.accepted + far.octets + far.frames + far.refused + far.refused_why + far.gap + far.gap_page);
    IS(G3_EMPTY_HANDLE, g3_terminal_params(&empty, &params));
    IS(G3_NO_ADDRESS, g3_terminal_params(&t, NULL));
    SIZES(none, g3_terminal_params(&t, &none));
    IS(G3_NOTHING, g3_terminal_params(&t, &params)); /* no DCS has come */
    IS(G3_EMPTY_HANDLE, g3_terminal_peer(NULL, &peer));
    IS(G3_NO_ADDRESS, g3_terminal_peer(&t, NULL));
    SIZES(unknown, g3_terminal_peer(&t, &unknown));
    IS(G3_NOTHING, g3_terminal_peer(&t, &peer));
    IS(1, params.dcs.carrier == 7 && peer.kind == 77); /* they are as they were */
    IS(G3_OK, g3_signal_write(&dcs, G3_CALLER, 1, octets, sizeof octets, &n));
    IS(G3_OK, g3_terminal_hear_frame(&t, octets, n));
    IS(G3_NOTHING, g3_terminal_params(&t, &params)); /* it wasn't listening: its DIS wasn't sent yet */
    sent(&t);
    IS(G3_OK, g3_terminal_hear_frame(&t, octets, n));
    IS(G3_OK, g3_terminal_params(&t, &params));
    IS(0, (g3_status)memcmp(&params.dcs, &dcs.dcs, sizeof params.dcs));
    IS(G3_OK, g3_terminal_peer(&t, &peer));
    IS(1, peer.kind == G3_DCS && memcmp(&params.dcs, &peer.dcs, sizeof params.dcs) == 0);
    IS(G3_OK, g3_terminal_state(&t, &state));
    IS(1, state.frames == 2 && state.listens == G3_HEARS_CHECK && state.carrier == G3_V29_9600);
    g3_terminal_free(&t);
}

/* What is next: a burst that waits, and no wait runs until it was sent; then the time that is due, or what comes. */
static void nexts(void)
{
    g3_terminal t = G3_EMPTY;
    g3_octets o = G3_EMPTY;
    g3_burst burst = G3_INIT(g3_burst);
    g3_caps caps = {G3_V17, 1, 1, 2432, 1};
    uint64_t at = 77;
    uint32_t next = 99;
    IS(G3_EMPTY_HANDLE, g3_terminal_next(&t, &next, &at));
    IS(G3_OK, g3_answerer_new(&t, &caps));
    IS(G3_NO_ADDRESS, g3_terminal_next(&t, NULL, &at));
    IS(G3_NO_ADDRESS, g3_terminal_next(&t, &next, NULL));
    IS(1, next == 99 && at == 77);
    IS(G3_OK, g3_terminal_next(&t, &next, &at));
    IS(1, next == G3_NEXT_SEND && at == 77); /* the first DIS */
    IS(G3_OK, g3_terminal_tick(&t, 1000, G3_QUIET));
    IS(G3_NOTHING, g3_terminal_due(&t, &at));
    IS(G3_OK, g3_terminal_tick(&t, 20000, G3_QUIET)); /* T2 is not over */
    IS(G3_OK, g3_terminal_next_burst(&t, &o, &burst));
    g3_octets_free(&o);
    IS(G3_OK, g3_terminal_next(&t, &next, &at));
    IS(1, next == G3_NEXT_NOTHING && at == 77); /* until a tick says what the line is */
    IS(G3_OK, g3_terminal_tick(&t, 21000, G3_QUIET));
    IS(G3_OK, g3_terminal_next(&t, &next, &at));
    IS(1, next == G3_NEXT_AT && at == 28000); /* T2 */
    IS(G3_OK, g3_terminal_tick(&t, 28000, G3_QUIET));
    IS(G3_OK, g3_terminal_next(&t, &next, &at));
    IS(1, next == G3_NEXT_SEND && at == 28000);
    g3_terminal_free(&t);
}

/* A check that is awaited and missed is a bad one, and FTT answers it; nothing else is missed. */
static void missed(void)
{
    g3_terminal t = G3_EMPTY;
    g3_octets o = G3_EMPTY;
    g3_deframer d = G3_EMPTY;
    g3_burst burst = G3_INIT(g3_burst);
    g3_state state = G3_INIT(g3_state);
    g3_signal s = G3_INIT(g3_signal);
    g3_caps caps = {G3_V17, 1, 1, 2432, 1};
    const uint8_t *data = NULL;
    uint64_t n = 0;
    IS(G3_EMPTY_HANDLE, g3_terminal_missed(&t));
    IS(G3_EMPTY_HANDLE, g3_terminal_missed(NULL));
    IS(G3_OK, g3_answerer_new(&t, &caps));
    IS(G3_OK, g3_terminal_next_burst(&t, &o, &burst));
    g3_octets_free(&o);
    IS(G3_OK, g3_terminal_missed(&t));
    IS(G3_NOTHING, g3_terminal_next_burst(&t, &o, &burst));
    s.kind = G3_DCS, s.dcs.carrier = G3_V29_9600, s.dcs.width = 1728, s.dcs.coding = G3_MMR, s.dcs.frame = 256;
    IS(G3_OK, g3_signal_write(&s, G3_CALLER, 1, octets, sizeof octets, &n));
    IS(G3_OK, g3_terminal_hear_frame(&t, octets, n));
    IS(G3_OK, g3_terminal_state(&t, &state));
    IS(1, state.frames == 1 && state.listens == G3_HEARS_CHECK);
    IS(G3_OK, g3_terminal_missed(&t));
    IS(G3_OK, g3_terminal_next_burst(&t, &o, &burst));
    IS(G3_OK, g3_octets_data(&o, &data, &n));
    IS(G3_OK, g3_deframer_new(&d));
    IS(G3_OK, g3_deframer_feed(&d, data, n));
    IS(G3_OK, g3_deframer_next(&d, octets, sizeof octets, &n));
    IS(G3_OK, g3_signal_read(octets, n, &s));
    IS(G3_FTT, s.kind);
    g3_octets_free(&o); g3_deframer_free(&d); g3_terminal_free(&t);
}

/* A call whose carrier has just ended is stopped by DCN once it has lasted as long as it may. */
static void ended(void)
{
    g3_terminal t = G3_EMPTY;
    g3_octets o = G3_EMPTY;
    g3_burst burst = G3_INIT(g3_burst);
    g3_state state = G3_INIT(g3_state);
    g3_caps caps = {G3_V17, 1, 1, 2432, 1};
    uint64_t at = 77;
    IS(G3_OK, g3_answerer_new(&t, &caps));
    IS(G3_OK, g3_terminal_next_burst(&t, &o, &burst));
    g3_octets_free(&o);
    IS(G3_OK, g3_terminal_most_seconds(&t, 5));
    IS(G3_OK, g3_terminal_tick(&t, 4000, G3_CARRIER));
    IS(G3_OK, g3_terminal_due(&t, &at));
    IS(15000, (g3_status)at);
    IS(G3_OK, g3_terminal_tick(&t, 4999, G3_ENDED));
    IS(G3_OK, g3_terminal_due(&t, &at));
    IS(5000, (g3_status)at);
    IS(G3_NOTHING, g3_terminal_next_burst(&t, &o, &burst));
    IS(G3_OK, g3_terminal_tick(&t, 5000, G3_ENDED));
    IS(G3_OK, g3_terminal_state(&t, &state));
    IS(G3_END_STOPPED, state.end);
    IS(G3_OK, g3_terminal_next_burst(&t, &o, &burst)); /* DCN */
    IS(1, burst.carrier == G3_V21 && burst.last == 1);
    g3_octets_free(&o); g3_terminal_free(&t);
}

/* most seconds of a call: it is stopped at the first quiet tick from then on, and given up 10 s later on any line; `due` tells it */
static void limits(void)
{
    g3_terminal t = G3_EMPTY;
    g3_octets o = G3_EMPTY;
    g3_burst burst = G3_INIT(g3_burst);
    g3_state state = G3_INIT(g3_state);
    g3_caps caps = {G3_V17, 1, 1, 2432, 1};
    uint64_t at = 77;
    IS(G3_EMPTY_HANDLE, g3_terminal_most_seconds(&t, 5));
    IS(G3_EMPTY_HANDLE, g3_terminal_most_seconds(NULL, 5));
    IS(G3_OK, g3_answerer_new(&t, &caps));
    IS(G3_OK, g3_terminal_most_seconds(&t, 5));
    IS(G3_OK, g3_terminal_due(&t, &at));
    IS(15000, (g3_status)at); /* no line was calm yet */
    IS(G3_OK, g3_terminal_tick(&t, 1000, G3_QUIET));
    IS(G3_OK, g3_terminal_due(&t, &at));
    IS(5000, (g3_status)at);
    IS(G3_OK, g3_terminal_tick(&t, 4999, G3_QUIET));
    IS(G3_OK, g3_terminal_tick(&t, 6000, G3_CARRIER));
    IS(G3_OK, g3_terminal_due(&t, &at));
    IS(15000, (g3_status)at);
    IS(G3_OK, g3_terminal_state(&t, &state));
    IS(0, state.end);
    IS(G3_OK, g3_terminal_most_seconds(&t, 0)); /* no limit */
    IS(G3_NOTHING, g3_terminal_due(&t, &at));
    IS(G3_OK, g3_terminal_tick(&t, 6500, G3_QUIET));
    IS(G3_OK, g3_terminal_state(&t, &state));
    IS(0, state.end);
    IS(G3_OK, g3_terminal_most_seconds(&t, 6));
    IS(G3_OK, g3_terminal_due(&t, &at));
    IS(6000, (g3_status)at); /* it has passed */
    IS(G3_OK, g3_terminal_tick(&t, 6500, G3_QUIET));
    IS(G3_OK, g3_terminal_state(&t, &state));
    IS(G3_END_STOPPED, state.end);
    IS(G3_NOTHING, g3_terminal_due(&t, &at));
    IS(G3_OK, g3_terminal_next_burst(&t, &o, &burst)); /* DCN */
    IS(1, burst.carrier == G3_V21 && burst.last == 1);
    g3_octets_free(&o);
    g3_terminal_free(&t);
}

/* A carrier of a day, of a line that is ticked when `due` says, and a second later where that has passed already: by a limit of ten minutes the
 * call is given up 10 s after them, in silence, and without a limit nothing is ever due. */
static void carriers(void)
{
    g3_terminal t = G3_EMPTY;
    g3_octets o = G3_EMPTY;
    g3_burst burst = G3_INIT(g3_burst);
    g3_state state = G3_INIT(g3_state);
    g3_caps caps = {G3_V17, 1, 1, 2432, 1};
    const uint64_t day = 24 * 3600 * 1000;
    for (uint32_t most = 0; most <= 600; most += 600) {
        uint64_t at = 0, now = 1000;
        int woken = 0;
        IS(G3_OK, g3_answerer_new(&t, &caps));
        IS(G3_OK, g3_terminal_most_seconds(&t, most));
        IS(G3_OK, g3_terminal_next_burst(&t, &o, &burst)); /* DIS */
        g3_octets_free(&o);
        IS(G3_OK, g3_terminal_tick(&t, now, G3_CARRIER));
        while (now < day && g3_terminal_due(&t, &at) == G3_OK) {
            now = at > now ? at : now + 1000;
            woken++;
            IS(G3_OK, g3_terminal_tick(&t, now, G3_CARRIER));
        }
        IS(G3_OK, g3_terminal_state(&t, &state));
        IS(most == 0 ? 0 : G3_END_LINE_LOST, state.end);
        IS(most == 0 ? 0 : 1, (g3_status)woken);
        IS(most == 0 ? 1000 : 610000, (g3_status)now);
        IS(G3_NOTHING, g3_terminal_next_burst(&t, &o, &burst));
        g3_terminal_free(&t);
    }
}

/* Hears a signal. */
static void say(g3_terminal *t, const g3_signal *signal)
{
    uint64_t n = 0;
    IS(G3_OK, g3_signal_write(signal, G3_CALLER, 1, octets, sizeof octets, &n));
    IS(G3_OK, g3_terminal_hear_frame(t, octets, n));
}

/* a DCS of three octets: no bit 27 */
static const uint8_t by_g3[] = {0xFF, 0x13, 0x83, 0x00, 0x22, 0x78};

/* what an answerer says of its caller: DCSs that it doesn't allow, and page numbers that jump */
static void watched(void)
{
    g3_terminal t = G3_EMPTY;
    g3_caps caps = {G3_V29, 1, 0, 1728, 1};
    g3_progress far = G3_INIT(g3_progress);
    g3_signal dcs = G3_INIT(g3_signal), pps = G3_INIT(g3_signal);
    dcs.kind = G3_DCS, dcs.dcs.carrier = G3_V17_14400, dcs.dcs.width = 1728, dcs.dcs.coding = G3_MMR, dcs.dcs.frame = 64;
    pps.kind = G3_PPS, pps.pps.ends = G3_MPS;
    IS(G3_OK, g3_answerer_new(&t, &caps));
    say(&t, &dcs);
    IS(G3_OK, g3_terminal_progress(&t, &far));
    IS(1, far.refused == 1 && far.refused_why == 0 && far.gap == 0);
    say(&t, &dcs);
    IS(G3_OK, g3_terminal_progress(&t, &far));
    IS(1, far.refused == 2 && far.refused_why == G3_REFUSED_NOT_OFFERED);
    IS(G3_OK, g3_terminal_hear_frame(&t, by_g3, sizeof by_g3));
    IS(G3_OK, g3_terminal_progress(&t, &far));
    IS(1, far.refused == 2 && far.refused_why == G3_REFUSED_NOT_OFFERED); /* the second one says why */
    g3_terminal_free(&t);
    IS(G3_OK, g3_answerer_new(&t, &caps));
    IS(G3_OK, g3_terminal_hear_frame(&t, by_g3, sizeof by_g3));
    IS(G3_OK, g3_terminal_hear_frame(&t, by_g3, sizeof by_g3));
    IS(G3_OK, g3_terminal_progress(&t, &far));
    IS(1, far.refused == 2 && far.refused_why == G3_REFUSED_NO_ECM);
    for (uint32_t page = 0; page < 2; page++) pps.pps.page = page, say(&t, &pps);
    IS(G3_OK, g3_terminal_progress(&t, &far));
    IS(0, far.gap + far.gap_page);
    pps.pps.page = 7, say(&t, &pps);
    pps.pps.page = 9, say(&t, &pps);
    IS(G3_OK, g3_terminal_progress(&t, &far));
    IS(1, far.gap == 1 && far.gap_page == 7);
    g3_terminal_free(&t);
}

/* Gives each burst of one station to the other one. */
static void over(g3_terminal *from, g3_terminal *to)
{
    static uint8_t line[1 << 12];
    g3_octets o = G3_EMPTY;
    g3_burst burst = G3_INIT(g3_burst);
    uint64_t n = 0;
    while (g3_terminal_next_burst(from, &o, &burst) == G3_OK) {
        IS(G3_OK, g3_octets_copy(&o, line, sizeof line, &n));
        g3_octets_free(&o);
        if (burst.check) IS(G3_OK, g3_terminal_hear_training(to, line, n));
        else IS(G3_OK, g3_terminal_hear(to, line, n));
    }
}

/* A page that is held is confirmed once it is stored: the caller hears RNR until then. */
static void held(void)
{
    g3_terminal caller = G3_EMPTY, answerer = G3_EMPTY;
    g3_document d = G3_EMPTY;
    g3_page page = G3_EMPTY, full = G3_EMPTY, none = G3_EMPTY;
    g3_caps one = {G3_V17, 1, 1, 2432, 1}, two = {G3_V17, 1, 1, 2432, 2};
    g3_wish wish = {G3_V17, G3_MMR, 256};
    g3_state state = G3_INIT(g3_state);
    IS(G3_EMPTY_HANDLE, g3_terminal_hold(&answerer, &page));
    IS(G3_OK, g3_answerer_new(&answerer, &two));
    IS(G3_EMPTY_HANDLE, g3_terminal_hold(NULL, &page));
    IS(G3_EMPTY_HANDLE, g3_terminal_hold(&answerer, NULL));
    IS(G3_BAD_CHOICE, g3_terminal_hold(&answerer, &page)); /* the page was confirmed before */
    g3_terminal_free(&answerer);
    IS(G3_OK, g3_answerer_new(&answerer, &one));
    IS(G3_NOTHING, g3_terminal_hold(&answerer, &page));
    IS(G3_OK, g3_page_new(&full, 1728, 1));
    IS(G3_FULL_HANDLE, g3_terminal_hold(&answerer, &full));
    IS(G3_OK, g3_page_push_row(&full, octets, 216));
    IS(G3_OK, g3_document_new(&d));
    IS(G3_OK, g3_document_push(&d, &full));
    IS(G3_OK, g3_caller_new(&caller, &d, &wish));
    IS(G3_OTHER_HANDLE, g3_terminal_hold(&caller, &none));
    for (int turns = 0; turns < 9 && page.at == NULL; turns++) {
        over(&answerer, &caller);
        over(&caller, &answerer);
        g3_status status = g3_terminal_hold(&answerer, &page);
        IS(page.at == NULL ? G3_NOTHING : G3_OK, status);
    }
    IS(G3_NOTHING, g3_terminal_hold(&answerer, &none));
    for (int turns = 0; turns < 3; turns++) {
        over(&answerer, &caller); /* RNR */
        over(&caller, &answerer); /* RR */
        IS(G3_OK, g3_terminal_state(&caller, &state));
        IS(1, page.at != NULL && state.pages == 0 && state.end == 0 && state.longer == G3_T5);
    }
    IS(G3_OK, g3_terminal_set_busy(&answerer, 0));
    for (int turns = 0; turns < 3; turns++) over(&answerer, &caller), over(&caller, &answerer);
    IS(G3_OK, g3_terminal_state(&caller, &state));
    IS(1, state.pages == 1 && state.end == G3_END_NORMAL);
    g3_page_free(&page), g3_terminal_free(&caller), g3_terminal_free(&answerer);
}

/* How many pages of an answerer are confirmed, and why its call ended. */
static void confirmed(const g3_terminal *t, uint64_t pages, uint32_t end)
{
    g3_progress far = G3_INIT(g3_progress);
    g3_state state = G3_INIT(g3_state);
    IS(G3_OK, g3_terminal_progress(t, &far));
    IS((g3_status)pages, (g3_status)far.confirmed);
    IS(G3_OK, g3_terminal_state(t, &state));
    IS(end, state.end);
}

/* 1.5 s of zeros at 14,400 bit/s */
static const uint8_t check_octets[2700];

/* Begins a call of an answerer by V.17 and T.6. */
static void begin(g3_terminal *t)
{
    g3_caps caps = {G3_V17, 1, 1, 2432, 3}; /* RNR is sent while that many pages wait */
    g3_signal dcs = G3_INIT(g3_signal);
    dcs.kind = G3_DCS, dcs.dcs.carrier = G3_V17_14400, dcs.dcs.width = 1728, dcs.dcs.coding = G3_MMR, dcs.dcs.frame = 64;
    IS(G3_OK, g3_answerer_new(t, &caps));
    sent(t); /* DIS */
    say(t, &dcs);
    IS(G3_OK, g3_terminal_hear_training(t, check_octets, sizeof check_octets));
    sent(t); /* CFR */
}

/* Says a page of a white row in one frame (V0 and EOFB: 1, and 000000000001 twice), and its PPS. */
static void say_page(g3_terminal *t, uint32_t page, uint32_t ends)
{
    static const uint8_t fcd[4 + 64] = {0xFF, 0x03, 0x06, 0x00, 0x01, 0x10, 0x00, 0x01};
    g3_signal pps = G3_INIT(g3_signal);
    pps.kind = G3_PPS, pps.pps.ends = ends, pps.pps.page = page;
    IS(G3_OK, g3_terminal_hear_frame(t, fcd, sizeof fcd));
    say(t, &pps);
}

/* A page is confirmed by the MCF that is taken; a caller that leaves before that has left too soon. A page under the number of the last one is
 * not confirmed: the terminal stops the call. */
static void confirms(void)
{
    g3_terminal t = G3_EMPTY;
    g3_progress far = G3_INIT(g3_progress);
    g3_signal dcn = G3_INIT(g3_signal), pps = G3_INIT(g3_signal);
    dcn.kind = G3_DCN, pps.kind = G3_PPS, pps.pps.ends = G3_MPS;
    for (int taken = 0; taken < 2; taken++) {
        begin(&t);
        say_page(&t, 0, G3_MPS), confirmed(&t, 0, 0), sent(&t), confirmed(&t, 1, 0);
        say(&t, &pps), sent(&t), confirmed(&t, 1, 0); /* the same PPS again */
        say_page(&t, 1, G3_EOP), confirmed(&t, 1, 0);
        if (taken) sent(&t);
        say(&t, &dcn), confirmed(&t, 1 + taken, taken ? G3_END_NORMAL : G3_END_PEER_LEFT);
        IS(G3_OK, g3_terminal_lost(&t));
        confirmed(&t, 1 + taken, taken ? G3_END_NORMAL : G3_END_PEER_LEFT);
        g3_terminal_free(&t);
    }
    begin(&t);
    say_page(&t, 0, G3_MPS), sent(&t);
    say_page(&t, 0, G3_EOP), confirmed(&t, 1, G3_END_STOPPED);
    IS(G3_OK, g3_terminal_progress(&t, &far));
    IS(1, far.refused == 0 && far.refused_why == G3_REFUSED_USED_NUMBER && far.pages == 1);
    sent(&t); /* DCN */
    confirmed(&t, 1, G3_END_STOPPED);
    g3_terminal_free(&t);
    /* two DCSs that aren't allowed were no reason to stop, so the number is told */
    begin(&t);
    for (int times = 0; times < 2; times++) IS(G3_OK, g3_terminal_hear_frame(&t, by_g3, sizeof by_g3));
    say_page(&t, 0, G3_MPS), sent(&t);
    say_page(&t, 0, G3_EOP), confirmed(&t, 1, G3_END_STOPPED);
    IS(G3_OK, g3_terminal_progress(&t, &far));
    IS(1, far.refused == 2 && far.refused_why == G3_REFUSED_USED_NUMBER);
    g3_terminal_free(&t);
}

/* The figures of a call: what an answerer hears and says of a block of 4 frames that don't come, by hand. */
static void counted(void)
{
    static const uint8_t tsi[] = "\xFF\x03\x43 54321+             ", blank[] = "\xFF\x03\x43                    ";
    static const uint8_t cig[] = "\xFF\x03\x41 9                  ", fcd[] = {0xFF, 0x03, 0x06, 0x07, 0x00}, ctc[] = {0xFF, 0x13, 0x13, 0x00, 0x22};
    g3_terminal t = G3_EMPTY;
    g3_caps caps = {G3_V17, 1, 1, 2432, 1};
    g3_progress far = G3_INIT(g3_progress);
    const g3_figures *are = &far.figures;
    g3_signal dcs = G3_INIT(g3_signal), pps = G3_INIT(g3_signal);
    dcs.kind = G3_DCS, dcs.dcs.carrier = G3_V17_14400, dcs.dcs.width = 1728, dcs.dcs.coding = G3_MMR, dcs.dcs.frame = 64;
    pps.kind = G3_PPS, pps.pps.ends = G3_EOP, pps.pps.last = 3;
    IS(G3_OK, g3_answerer_new(&t, &caps));
    sent(&t); /* DIS */
    IS(G3_OK, g3_terminal_wait_over(&t, G3_T2));
    sent(&t); /* DIS once more */
    IS(G3_OK, g3_terminal_progress(&t, &far));
    IS(1, are->retries == 1 && are->first_speed == 0 && are->last_speed == 0 && are->other == 0 && are->peer_length == 0);
    IS(G3_OK, g3_terminal_hear_frame(&t, tsi, sizeof tsi - 1));
    IS(G3_OK, g3_terminal_hear_frame(&t, blank, sizeof blank - 1)); /* no name */
    IS(G3_OK, g3_terminal_hear_frame(&t, tsi, sizeof tsi - 2));     /* 19 characters */
    IS(G3_OK, g3_terminal_hear_frame(&t, cig, sizeof cig - 1));     /* nobody's name */
    IS(G3_OK, g3_terminal_progress(&t, &far));
    IS(1, are->other == 1 && are->control == 0x41 && are->peer_length == 7 && memcmp(are->peer, "+12345 \0\0\0\0\0\0\0\0\0\0\0\0", 20) == 0);
    say(&t, &dcs);
    IS(G3_OK, g3_terminal_missed(&t));
    sent(&t); /* FTT */
    dcs.dcs.carrier = G3_V17_9600;
    say(&t, &dcs);
    IS(G3_OK, g3_terminal_hear_training(&t, check_octets, sizeof check_octets));
    sent(&t); /* CFR */
    say(&t, &pps);
    IS(G3_OK, g3_terminal_progress(&t, &far));
    IS(1, are->pprs == 0); /* it waits to be taken */
    sent(&t); /* PPR */
    IS(G3_OK, g3_terminal_hear_frame(&t, ctc, sizeof ctc));
    IS(G3_OK, g3_terminal_hear_frame(&t, fcd, sizeof fcd)); /* counts as nothing */
    IS(G3_OK, g3_terminal_progress(&t, &far));
    IS(1, are->blocks == 0 && are->pprs == 1 && are->resent == 4 && are->retries == 1 && are->failed_checks == 1 && are->other == 1
        && are->control == 0x13 && are->first_speed == G3_V17_14400 && are->last_speed == G3_V17_9600);
    g3_terminal_free(&t);
}

/* Hears an answerer's signal. */
static void reply(g3_terminal *t, const g3_signal *signal)
{
    uint64_t n = 0;
    IS(G3_OK, g3_signal_write(signal, G3_ANSWERER, 1, octets, sizeof octets, &n));
    IS(G3_OK, g3_terminal_hear_frame(t, octets, n));
}

/* MCF said twice in the burst of a CFR confirms nothing: the page waits to be sent. DCN is heard also then. */
static void doubled(void)
{
    g3_terminal t = G3_EMPTY;
    g3_document d = G3_EMPTY;
    g3_wish wish = {G3_V17, G3_MMR, 256};
    g3_state state = G3_INIT(g3_state);
    g3_signal dis = G3_INIT(g3_signal), cfr = G3_INIT(g3_signal), mcf = G3_INIT(g3_signal), dcn = G3_INIT(g3_signal);
    g3_octets o = G3_EMPTY;
    g3_burst burst = G3_INIT(g3_burst);
    cfr.kind = G3_CFR, mcf.kind = G3_MCF, dcn.kind = G3_DCN, dis.kind = G3_DIS;
    dis.dis.receiver = 1, dis.dis.ecm = 1, dis.dis.modems = G3_V17, dis.dis.fine = 1, dis.dis.t6 = 1, dis.dis.widest = 2432;
    IS(G3_OK, g3_document_new(&d));
    for (int pages = 0; pages < 2; pages++) {
        g3_page page = G3_EMPTY;
        IS(G3_OK, g3_page_new(&page, 1728, 1));
        IS(G3_OK, g3_page_push_row(&page, octets, 216));
        IS(G3_OK, g3_document_push(&d, &page));
    }
    IS(G3_OK, g3_caller_new(&t, &d, &wish));
    reply(&t, &dis);
    for (int bursts = 0; bursts < 2; bursts++) IS(G3_OK, g3_terminal_next_burst(&t, &o, &burst)), g3_octets_free(&o); /* DCS, check */
    reply(&t, &cfr), reply(&t, &mcf), reply(&t, &mcf);
    IS(G3_OK, g3_terminal_state(&t, &state));
    IS(1, state.pages == 0 && state.end == 0 && state.frames == 4);
    for (int bursts = 0; bursts < 2; bursts++) IS(G3_OK, g3_terminal_next_burst(&t, &o, &burst)), g3_octets_free(&o); /* page, PPS */
    reply(&t, &mcf), reply(&t, &mcf);
    IS(G3_OK, g3_terminal_state(&t, &state));
    IS(1, state.pages == 1 && state.end == 0);
    reply(&t, &dcn);
    IS(G3_OK, g3_terminal_state(&t, &state));
    IS(1, state.pages == 1 && state.end == G3_END_PEER_LEFT);
    g3_terminal_free(&t);
}

int main(void)
{
    documents();
    redials();
    terminals();
    clocks();
    agreed();
    limits();
    nexts();
    missed();
    ended();
    carriers();
    watched();
    counted();
    held();
    confirms();
    doubled();
    return bad;
}
