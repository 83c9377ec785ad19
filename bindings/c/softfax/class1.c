#include "class1_inner.h"
#include "carriers.h"
#include <stdlib.h>
#include <string.h>

enum { ETX = 3, DLE = 16, XON = 17, XOFF = 19, CAN = 24, SUB = 26 };

/* Durations in milliseconds. */
static const int LONGEST[OPS] = {
    [SETS_UP] = 3000, [ASKS] = 3000, [DIALS] = 90000, [ANSWERS] = 30000, [AWAITS_SILENCE] = 2500 /* after that it is hiss */,
    [ABORTS] = 600, [GOES_ON_HOOK] = 3000,
    [FTH] = 6000, [FTH_HELD] = 6000, [FTM] = 6000, [FTM_DATA] = 15000, [FTH_END] = 15000, [FTM_END] = 15000};
enum {
    LONGEST_DRAIN = 4000, /* before it is told to hang up: it may say the rest of a page first */
    LONGEST_GAP = 3000,  /* without an octet in a frame or a page that comes */
    NEXT_FRAME = 1200,   /* from a frame to CONNECT of the next one */
    LATEST_PAGE = 3300,  /* until a page's carrier; the caller's T4 is over by then, and it speaks by V.21 */
    LATEST_LONG = 4700,  /* the same with the long training */
    LONGEST_UNSURE = 8000, /* +FRH of a modem that has had no result for the last command: is it still there? */
    AFTER_ERROR = 100,
    AFTER_CAN = 3000,    /* in this time an OK is its result, late */
    AFTER_ABORT = 25,    /* without an octet: whatever a modem says behind a CAN isn't taken for a result of the next command */
    LET_SPEAK = 200      /* after a signal that is answered the terminal speaks in 75 ms: +FRH isn't begun, or it would be broken off */
};
enum { MOST_ERRORS = 5 };     /* of +FRH, one after the other: the modem is on hook */
enum { MOST_UNANSWERED = 4 }; /* ops with no result, one after the other: the modem has fallen silent */
/* Octets and commands */

static void trace(const modem *it, char way, const char *text, int count)
{
    if (it->setup.trace == NULL) return;
    fprintf(it->setup.trace, "%lld %c %s", (long long)it->now, way, text);
    if (count > 0) fprintf(it->setup.trace, " %d", count);
    fprintf(it->setup.trace, "\n");
    fflush(it->setup.trace);
}

/* Writes what can be written. */
static void flush(modem *it)
{
    while (it->out.count > 0 && !it->stopped && !it->is_gone) {
        int run = RING_ROOM - it->out.first;
        int put = it->port.write(it->port.user, it->out.octets + it->out.first, it->out.count < run ? it->out.count : run);
        if (put < 0) it->is_gone = 1;
        if (put <= 0) return;
        it->out.first = (it->out.first + put) % RING_ROOM;
        it->out.count -= put;
    }
}

void class1_begin(modem *it, int op)
{
    it->op = op;
    it->since = it->moved = it->now;
}

/* What a modem has left unread for long is dropped, so that there is room. */
void class1_command(modem *it, int op, const char *text)
{
    static const uint8_t END = '\r';
    snprintf(it->command, sizeof it->command, "%s", text);
    it->filled = 0;
    if (!ring_put(&it->out, (const uint8_t *)it->command, (int)strlen(it->command)) || !ring_put(&it->out, &END, 1)) it->out.count = 0;
    flush(it);
    trace(it, '>', it->command, 0);
    class1_begin(it, op);
}

/* Writes octets of data, with each DLE doubled. */
static void put_data(modem *it, const uint8_t *octets, int count)
{
    static const uint8_t TWO[] = {DLE, DLE};
    for (int i = 0; i < count; i++) {
        if (octets[i] == DLE) ring_put(&it->out, TWO, 2);
        else ring_put(&it->out, octets + i, 1);
    }
}

void class1_put_end(modem *it)
{
    static const uint8_t END[] = {DLE, ETX};
    ring_put(&it->out, END, 2);
    flush(it);
}

static void mind_xoff(modem *it, int is)
{
    it->stopped = 0;
    if (it->port.mind_xoff != NULL) it->port.mind_xoff(it->port.user, is);
}

void class1_fail(modem *it, const char *why, const char *what)
{
    if (it->why[0] == 0) snprintf(it->why, sizeof it->why, "%s%s", why, what);
    it->is_lost = it->stage == CLASS1_IS_ON;
    it->op = FREE;
    if (it->stage < CLASS1_IS_ON) class1_hang_up(it);
}

static void abort_op(modem *it)
{
    static const uint8_t END = CAN;
    ring_put(&it->out, &END, 1);
    flush(it);
    trace(it, '>', "CAN", 0);
    it->filled = it->is_aborted = 0;
    it->aborted = it->now;
    class1_begin(it, ABORTS);
}

/* What is heard */

static void begin_signal(modem *it)
{
    if (it->ends) it->ends = 0; /* the terminal hasn't been told of its end: it goes on */
    else if (!it->in_signal) it->begins = 1;
    it->in_signal = 1;
}

/* The signal has ended; nothing more is listened for until the terminal says what. */
static void end_signal(modem *it, int is_answered)
{
    it->more = 0;
    it->answers_next = is_answered;
    if (!it->in_signal) return;
    it->in_signal = it->is_listening = 0;
    it->ends = 1;
}

/* A frame has come: its content, without the check sequence that the modem hands over too. The last one of a signal says so (T.30, 5.3.5);
 * after a bad one there may be another. */
static void end_frame(modem *it, int is_well, int is_end)
{
    int is_good = is_well && class1_frame_is_whole(&it->frame);
    int is_last = class1_frame_is_last(&it->frame);
    if (is_good) put_frame(&it->heard, it->frame.octets, it->frame.length - 2);
    trace(it, '<', is_good ? "frame of octets" : "bad frame of octets", it->frame.length);
    it->op = FREE;
    if (is_end || (is_good && is_last)) end_signal(it, 1);
    else it->more = 1;
}

/* What is said */

/* Takes the contents of a burst's frames: the modem makes flags, stuffing and check sequences itself. If memory is refused there is none,
 * and the burst is lost, as on a line. */
static void take_contents(modem *it, const uint8_t *octets, uint64_t count)
{
    g3_deframer from = G3_EMPTY;
    uint8_t content[MOST_CONTENT];
    uint64_t length = 0;
    it->contents.count = 0;
    if (g3_deframer_new(&from) == G3_OK && g3_deframer_feed(&from, octets, count) == G3_OK) {
        while (g3_deframer_next(&from, content, sizeof content, &length) == G3_OK) put_frame(&it->contents, content, (int)length);
    }
    g3_deframer_free(&from);
}

static void end_said(modem *it)
{
    mind_xoff(it, 0);
    it->says = 0;
    it->op = FREE;
}

/* Says the next frame by V.21; without one the burst is over. */
static void say_frame(modem *it)
{
    uint8_t content[MOST_FRAME];
    int length = take_frame(&it->contents, content);
    if (length == 0) {
        end_said(it);
        return;
    }
    put_data(it, content, length);
    class1_put_end(it);
    trace(it, '>', "frame of octets", length);
    it->ended_again = 0;
    class1_begin(it, FTH_END);
}

/* Hands over octets of a page: a second's worth before the line has carried it, and a quarter more than it carries, so that no modem runs
 * dry; in small pieces, so that XOFF comes in time. A modem whose buffer is smaller says that, or RTS/CTS does. */
static void say_page(modem *it)
{
    enum { AHEAD = 1000, PIECE = 48, PIECE_MILLIS = 5, MOST_WAITING = 256 };
    uint64_t most = (uint64_t)rate_of(it->carrier) * (uint64_t)(AHEAD + (it->now - it->connected) * 5 / 4) / 8000;
    int is_due = it->now - it->moved >= PIECE_MILLIS && it->out.count == 0 && !it->stopped;
    if (it->port.waiting != NULL && it->port.waiting(it->port.user) > MOST_WAITING) return;
    if (it->at < it->count && it->at < most && is_due) {
        uint64_t piece = it->count - it->at < PIECE ? it->count - it->at : PIECE;
        put_data(it, it->octets + it->at, (int)piece);
        it->at += piece;
        it->moved = it->now;
        flush(it);
    }
    if (it->at < it->count || it->out.count > 0) return;
    class1_put_end(it);
    trace(it, '>', "octets", (int)it->count);
    class1_begin(it, FTM_END);
}

/* Commands */

/* Says the burst: at the beginning of a turn once the line is silent. */
static void say(modem *it)
{
    char text[24];
    if (it->wants_silence) {
        it->wants_silence = 0;
        class1_command(it, AWAITS_SILENCE, "AT+FRS=7");
        return;
    }
    snprintf(text, sizeof text, it->carrier == G3_V21 ? "AT+FTH=%d" : "AT+FTM=%d", class1_number(it->carrier, it->brief));
    class1_command(it, it->carrier == G3_V21 ? FTH : FTM, text);
}

static void listen(modem *it)
{
    char text[24];
    it->escaped = 0;
    if (!it->page_next || it->more) {
        class1_command(it, FRH, "AT+FRH=3");
        return;
    }
    snprintf(text, sizeof text, "AT+FRM=%d", class1_number(it->listens, it->is_brief));
    class1_command(it, FRM, text);
}

static int is_receiving(int op)
{
    return op >= FRH && op <= FRM_END;
}

/* Leaves the op that stands against what is to be done. */
static void make_way(modem *it)
{
    int is_left = is_receiving(it->op) || (it->op >= SETS_UP && it->op <= AWAITS_SILENCE);
    if (it->hangs_up && is_left) abort_op(it);
    else if (it->hangs_up && it->op >= FTH) {
        it->out.count = 0;
        mind_xoff(it, 0);
        class1_put_end(it);
        class1_put_end(it); /* the first one may follow a single DLE */
        it->is_aborted = 0;
        class1_begin(it, ABORTS);
    } else if (it->says && is_receiving(it->op)) abort_op(it);
}

/* Gives the next command, if one is due. */
static void advance(modem *it)
{
    make_way(it);
    if (it->op != FREE || it->stage == CLASS1_IS_OVER) return;
    if (it->hangs_up) {
        it->hangs_up = 0;
        it->stage = CLASS1_HANGS_UP;
        class1_command(it, GOES_ON_HOOK, "ATH0");
    } else if (it->stage == CLASS1_SETS_UP) class1_set_up(it);
    else if (it->stage == CLASS1_WAITS) class1_await_ring(it);
    else if (it->stage != CLASS1_IS_ON) return;
    else if (it->says) say(it);
    else if (it->more || (it->is_listening && it->now >= it->not_before)) listen(it);
}

/* Results */

void class1_connect_frame(modem *it)
{
    it->errors = 0;
    class1_frame_begin(&it->frame);
    class1_begin(it, FRH_DATA);
    begin_signal(it);
}

/* A result of +FRH. OK can't be one before CONNECT: it is that of a CAN, late. */
static void take_frh_result(modem *it, int is)
{
    if (is == CONNECT) class1_connect_frame(it);
    if (is == CONNECT || is == ADAPTS_TO_V21 || (is == OK && it->now - it->aborted < AFTER_CAN)) return;
    end_signal(it, 0);
    it->op = FREE;
    it->not_before = it->now + AFTER_ERROR;
    if (is == ERROR && ++it->errors == MOST_ERRORS) class1_fail(it, "the modem has hung up", "");
}

/* A result of +FRM. */
static void take_frm_result(modem *it, int is)
{
    if (is == CONNECT) {
        class1_begin(it, FRM_DATA);
        begin_signal(it);
        it->trains = 1;
        return;
    }
    if (is == OK && it->now - it->aborted < AFTER_CAN) return; /* late, as of +FRH */
    it->page_next = 0; /* another carrier, which is V.21 */
    it->op = is == ADAPTS_TO_V21 ? FRH : FREE;
}

/* A result of +FTH or +FTM. Before CONNECT it can't be OK, and after a CAN what isn't ERROR is the CAN's, late. */
static void take_said_result(modem *it, int is)
{
    int is_first = it->op == FTH || it->op == FTM, is_late = it->now - it->aborted < AFTER_CAN && is != CONNECT && is != ERROR;
    if (is_first && (is == OK || is_late)) return;
    if (is != CONNECT) end_said(it);
    else if (it->op == FTH || it->op == FTH_END) say_frame(it);
    else if (it->op == FTM) {
        it->at = 0;
        it->connected = it->now;
        it->ended_again = 0;
        mind_xoff(it, 1);
        class1_begin(it, FTM_DATA);
    }
}

static void take_result(modem *it, const char *line)
{
    int is = class1_result(line);
    if (is == NO_RESULT) {
        if (strcmp(line, it->command) == 0) it->echoes = 1;
        else class1_note_line(it, line);
        return;
    }
    it->unanswered = it->echoes = 0;
    switch (it->op) {
    case AWAITS_SILENCE: it->op = FREE; return;
    case ABORTS: it->is_aborted |= is != CONNECT && is != RING; return;
    case FRH: take_frh_result(it, is); return;
    case FRH_END:
        if (is == CONNECT) class1_connect_frame(it); /* and the frame before it had no result */
        else end_frame(it, is == OK, is == NO_CARRIER);
        return;
    case FRM: take_frm_result(it, is); return;
    case FRM_END:
        it->page_next = 0;
        end_signal(it, !it->is_brief);
        it->op = FREE;
        return;
    case FTH: case FTH_HELD: case FTH_END: case FTM: case FTM_DATA: case FTM_END: take_said_result(it, is); return;
    default: class1_call_result(it, is, line);
    }
}

/* What comes from the modem */

/* An octet of a result. Data begin behind CONNECT, CR and LF, so it is LF that ends a line. */
static void take_text(modem *it, uint8_t octet)
{
    octet &= 0x7f;
    if (octet == '\r') return;
    if (octet != '\n') {
        if (it->filled + 1 < (int)sizeof it->line) it->line[it->filled++] = (char)octet;
        return;
    }
    it->line[it->filled] = 0;
    if (it->filled == 0) return;
    it->filled = 0;
    trace(it, '<', it->line, 0);
    take_result(it, it->line);
}

/* An octet of a page. */
static void take_page(modem *it, uint8_t octet)
{
    static const uint8_t TWO[] = {DLE, DLE};
    if (!it->escaped && octet != DLE) ring_put(&it->page, &octet, 1);
    else if (it->escaped && octet == DLE) ring_put(&it->page, TWO, 1);
    else if (it->escaped && octet == SUB) ring_put(&it->page, TWO, 2);
    if (it->escaped && octet == ETX) {
        it->filled = 0;
        class1_begin(it, FRM_END);
    }
    it->escaped = !it->escaped && octet == DLE;
}

/* An octet of a frame. */
static void take_frame_octet(modem *it, uint8_t octet)
{
    int is = class1_frame_take(&it->frame, octet);
    if (is == NO_RESULT && !it->frame.is_ended) return;
    if (is != NO_RESULT) trace(it, '<', it->frame.line, 0);
    it->filled = 0;
    if (is == CONNECT) {
        class1_begin(it, FRH_DATA);
        return;
    }
    class1_begin(it, FRH_END);
    if (is != NO_RESULT) take_result(it, it->frame.line);
}

/* XON and XOFF mean something while data are given to the modem. */
static int minds_xoff(int op)
{
    return op == FTH_END || op == FTM_DATA || op == FTM_END;
}

static void take_octet(modem *it, uint8_t octet)
{
    if (it->op == ABORTS) it->moved = it->now;
    if (it->op == FRH_DATA || it->op == FRM_DATA) {
        it->moved = it->now;
        if (it->op == FRM_DATA) take_page(it, octet);
        else take_frame_octet(it, octet);
    } else if (octet == XON || octet == XOFF) it->stopped = octet == XOFF && minds_xoff(it->op);
    else take_text(it, octet);
}

/* Reads as much as there is room for, but for no longer than a while: what isn't read waits in the tty. */
static void read_port(modem *it)
{
    enum { MOST_READS = 16 };
    uint8_t octets[256];
    for (int i = 0; i < MOST_READS && !it->is_gone; i++) {
        if (it->page.count > RING_ROOM - 2 * (int)sizeof octets || it->heard.count > MOST_CONTENTS / 2) return;
        int got = it->port.read(it->port.user, octets, sizeof octets);
        if (got < 0) it->is_gone = 1;
        if (got <= 0) return;
        for (int k = 0; k < got; k++) take_octet(it, octets[k]);
    }
}

/* Ops that take too long */

/* Whether an op that had to end has no result, again and again. */
static int is_mute(modem *it)
{
    if (++it->unanswered < MOST_UNANSWERED) return 0;
    class1_fail(it, "the modem has fallen silent", "");
    return 1;
}

/* An op has taken longer than it may. */
static void end_late_op(modem *it)
{
    switch (it->op) {
    case SETS_UP: class1_miss_step(it); return;
    case DIALS:
        class1_fail(it, "nobody answers with a fax's signal", "");
        class1_begin(it, DIALS); /* it is still to be aborted */
        return;
    case ANSWERS: class1_fail(it, "the modem doesn't answer the call", ""); return;
    case ASKS:
        if (!is_mute(it)) it->op = FREE; /* and it is asked again */
        return;
    case AWAITS_SILENCE:
        if (!is_mute(it)) abort_op(it);
        return;
    case ABORTS:
        if (!is_mute(it)) it->op = FREE;
        return;
    case GOES_ON_HOOK:
        it->op = FREE;
        it->stage = CLASS1_IS_OVER;
        return;
    case FTM_DATA: /* it takes no more: what is left isn't said */
        it->out.count = 0;
        mind_xoff(it, 0);
        class1_put_end(it);
        class1_begin(it, FTM_END);
        return;
    case FTH_END: case FTM_END:
        if (!it->ended_again) { /* octets may have been lost, and it still waits for the end */
            it->ended_again = 1;
            mind_xoff(it, 0);
            class1_put_end(it);
            class1_begin(it, it->op);
            return;
        }
        break;
    }
    if (!is_mute(it)) end_said(it);
}

static void end_op(modem *it)
{
    int64_t lasts = it->now - it->since, still = it->now - it->moved;
    int longest = it->op == ABORTS && it->hangs_up ? LONGEST_DRAIN : LONGEST[it->op];
    if (longest > 0 && (it->op == FTM_DATA ? still : lasts) > longest) {
        end_late_op(it);
        return;
    }
    switch (it->op) {
    case FRH:
        if (it->more && it->in_signal && lasts > NEXT_FRAME) end_signal(it, 1); /* +FRH goes on */
        if (it->unanswered > 0 && lasts > LONGEST_UNSURE) abort_op(it);
        return;
    case FRM:
        if (lasts <= (it->is_brief ? LATEST_PAGE : LATEST_LONG)) return;
        it->page_next = 0;
        abort_op(it);
        return;
    case ABORTS:
        if (it->is_aborted && still >= AFTER_ABORT) it->op = FREE;
        return;
    case FRH_DATA: case FRH_END: case FRM_DATA: case FRM_END:
        if (still <= LONGEST_GAP) return;
        it->page_next = 0;
        end_signal(it, 0);
        abort_op(it);
        return;
    case FTH_HELD:
        if (!it->says || it->carrier != G3_V21) return;
        it->wants_silence = 0;
        say_frame(it);
        return;
    case FTM_DATA: say_page(it); return;
    }
}

int class1_step(modem *it, int64_t now)
{
    it->now = now;
    read_port(it);
    end_op(it);
    advance(it);
    flush(it);
    if (it->is_gone && it->stage < CLASS1_IS_OVER) {
        class1_fail(it, "the tty is gone", "");
        it->stage = CLASS1_IS_OVER;
    }
    return it->stage;
}

/* As a modem of a terminal */

static void class1_free(modem *it)
{
    free(it);
}

static void class1_begin_tone(modem *it, int tone)
{
    (void)it; /* ATD and ATA say them */
    (void)tone;
}

static void class1_begin_carrier(modem *it, uint32_t carrier, int brief, const uint8_t *octets, uint64_t bits)
{
    it->says = 1;
    it->is_listening = it->more = 0;
    it->wants_silence = !it->in_turn;
    it->in_turn = 1;
    it->carrier = carrier;
    it->brief = brief;
    it->octets = octets;
    it->count = (bits + 7) / 8;
    it->at = 0;
    if (carrier == G3_V21) take_contents(it, octets, it->count);
    advance(it);
}

static int class1_say(modem *it, int16_t *out)
{
    (void)out;
    return it->says && it->stage == CLASS1_IS_ON;
}

static void class1_cut(modem *it)
{
    if (it->at < it->count) it->count = it->at; /* frames by V.21 are short, and go on */
}

static void class1_listen(modem *it, uint32_t carrier, int brief)
{
    int is_check = carrier != 0 && !brief;
    it->listens = carrier;
    it->is_brief = brief;
    if (carrier == 0) it->page_next = 0;
    if (is_check) it->page_next = 1;
    it->not_before = it->answers_next && !is_check ? it->now + LET_SPEAK : it->now;
    it->answers_next = 0;
    it->is_listening = 1;
    if ((it->op == FRM && carrier == 0) || (it->op == FRH && it->page_next)) abort_op(it);
    advance(it);
}

static void class1_hear(modem *it, const int16_t *in, modem_heard *heard)
{
    (void)in;
    memset(heard, 0, sizeof *heard);
    heard->begins = it->begins;
    heard->trains = it->trains;
    it->begins = it->trains = 0;
    heard->count[BY_PAGE] = (uint32_t)ring_take(&it->page, heard->octets[BY_PAGE], MOST_HEARD);
    heard->length = (uint32_t)take_frame(&it->heard, heard->content);
    heard->ends = it->ends && it->page.count == 0 && it->heard.count == 0;
    if (heard->ends) it->ends = 0;
}

static int class1_is_noisy(const modem *it)
{
    (void)it;
    return 0; /* the modem doesn't say */
}

static void class1_hush(modem *it)
{
    if (!it->in_signal) return;
    end_signal(it, 0);
    if (is_receiving(it->op)) abort_op(it);
}

/* A turn has ended: where a page is listened for it comes first, and V.21 after it. */
static void class1_forget(modem *it)
{
    it->begins = it->trains = it->ends = 0;
    it->in_signal = it->more = it->in_turn = it->answers_next = 0;
    it->page.count = it->heard.count = 0;
    it->page_next = 1;
}

const modem_kind modem_of_class1 = {class1_free, class1_begin_tone, class1_begin_carrier, class1_say, class1_cut, class1_listen,
    class1_hear, class1_is_noisy, class1_hush, class1_forget, 1, 1};

void class1_hang_up(modem *it)
{
    it->hangs_up = it->stage < CLASS1_HANGS_UP;
    it->says = 0;
}

const char *class1_why(const modem *it)
{
    return it->why[0] != 0 ? it->why : NULL;
}

uint32_t class1_speeds(const modem *it)
{
    return class1_modems(it->speeds);
}

int class1_is_lost(const modem *it)
{
    return it->is_lost || it->is_gone;
}
