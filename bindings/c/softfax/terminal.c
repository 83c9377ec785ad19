#include "terminal.h"
#include "carriers.h"
#include "identity.h"
#include "names.h"
#include <stdio.h>
#include <stdlib.h>
#include <string.h>

/* Durations in milliseconds. The waits of T.30 are those of the library, g3_wait_millis. */
enum {
    BEFORE_CED = 1800,        /* an answerer is silent at first, and then says CED (T.30, 4) */
    CED = 2600,
    BEFORE_CARRIER = 75,      /* silence (T.30, 5.3) */
    AFTER_CALL = 200,         /* silence after the last carrier, so that the line carries all of it */
    LONGEST_UNREAD = 6000,    /* a signal with no frame where no page is awaited: after that it is the line's hiss */
    LONGEST_READ = 60000,     /* beyond that, of a signal with frames: nobody who means it says so much at once */
    LONGEST_CRACKLE = 300000, /* a line that is never silent for long, with no frame: T1 is over, whatever else is heard */
    LATEST_CHECK = 3600,      /* after a DCS: 75 ms, 1.4 s of V.17's training, 1.5 s, and how late the other side may be */
    LEAST_CHECK = 1000,       /* a signal that may have been a training check that couldn't be read */
    LEAST_SIGNAL = 700,       /* a shorter one without a frame is a crackle, or the echo of our own CNG: no wait runs anew from it */
    BEFORE_CNG = 1000         /* silence */
};
enum { NEVER = -1 };
enum { BLOCK_BITS = 660000 }; /* the longest block: 256 frames of 262 octets with a flag each and as many 0 bits stuffed as can be */

enum phase { WAITS_FOR_CED, IN_CED, LISTENS, PAUSES, IN_CARRIER, LEAVES, IS_OVER };

struct terminal {
    g3_terminal *station;
    terminal_pages pages;
    const modem_kind *kind;
    modem *modem;
    const char *name;               /* for what is told; NULL: nothing is */
    void (*line)(const char *text); /* takes what is told */
    int calls, phase;
    int64_t now, until;             /* until: when a silence or a tone is over */
    int64_t quiet;                  /* since when the line is silent; NEVER while there is a signal */
    int64_t calm;                   /* when our last turn ended, or the last wait, or the last signal that was no crackle */
    int64_t heard;                  /* when the last good frame or training check came */
    int64_t listened;               /* since when a training check is awaited */
    int64_t not_before;             /* nothing is said before this, as a check may be on the line that isn't listened for */
    uint32_t said;                  /* the kind of the last signal of the last carrier, if that was V.21; 0: it had none */
    int64_t asked;                  /* the last time at which T5 didn't run */
    int64_t began;                  /* when the last signal began */
    int rings;                      /* CNG goes out while nothing is heard */
    int reads;                      /* frames have come in this signal */
    int trained;                    /* the page receiver is, in this signal */
    uint32_t listens, carrier;      /* what is listened for, as the library has said it */
    g3_deframer frames[RECEIVERS];  /* each receiver has one of its own: both hear the line at once */
    uint8_t *check;                 /* the octets of a training check */
    size_t checked, check_room;
    uint8_t *octets;                /* the burst that goes out */
    g3_burst burst;
    int answers_ctc, ctr;           /* CTC is answered; CTR is to be said */
    uint32_t ctc;                   /* the carrier that CTC has named; 0: none since the last DCS */
    int is_answered;                /* the last frame that was heard is a CTC which CTR answers */
    int without_correction;         /* how many DCS have come from a caller that has no error correction */
    const char *why;                /* why the terminal has ended the call; NULL: it hasn't */
    const char *identity;           /* how this station is named in what it sends; NULL: it isn't */
    g3_figures figures;             /* as the library told them last */
    int hurries;                    /* the call is to end soon, whatever is on the line */
    int trains_anew;                /* the next page carrier comes with the long training, as CTC has it */
};

static void tell(const terminal *it, const char *what, const char *name, uint64_t number)
{
    char text[200], of[24] = "";
    if (it->name == NULL) return;
    if (number > 0) snprintf(of, sizeof of, " %llu", (unsigned long long)number);
    snprintf(text, sizeof text, "%llu %s %s%s%s%s", (unsigned long long)it->now, it->name, what, name != NULL ? " " : "",
        name != NULL ? name : "", of);
    it->line(text);
}

/* Tells of a status that isn't 0; whether it is 0. */
static int is_done(const terminal *it, g3_status status)
{
    if (status != G3_OK) tell(it, "is refused:", g3_status_text(status), status);
    return status == G3_OK;
}

/* The octets of a handle, to be freed, with their number; NULL where memory is refused. The handle is empty then. */
static uint8_t *octets_of(g3_octets *handle, uint64_t *length)
{
    uint8_t *octets = NULL;
    if (g3_octets_len(handle, length) == G3_OK) octets = malloc(*length + 1);
    if (octets != NULL && g3_octets_copy(handle, octets, *length, length) != G3_OK) {
        free(octets);
        octets = NULL;
    }
    g3_octets_free(handle);
    return octets;
}

terminal *terminal_new(g3_terminal *station, const terminal_pages *pages, const modem_kind *kind, modem *modem)
{
    static const terminal fresh;
    terminal *it = malloc(sizeof *it);
    if (it == NULL) return NULL;
    *it = fresh;
    it->station = station;
    it->kind = kind;
    it->modem = modem;
    it->calls = pages == NULL;
    it->rings = it->calls && !kind->has_tones;
    if (pages != NULL) it->pages = *pages;
    it->phase = it->calls || kind->has_tones ? LISTENS : WAITS_FOR_CED;
    it->until = BEFORE_CED;
    it->check_room = 4096; /* 1.5 s at 14,400 bit/s are 2,700 octets */
    it->check = malloc(it->check_room);
    if (it->check != NULL && g3_deframer_new(&it->frames[BY_V21]) == G3_OK && g3_deframer_new(&it->frames[BY_PAGE]) == G3_OK) {
        if (it->rings) kind->begin_tone(modem, TONE_CNG);
        return it;
    }
    terminal_free(it);
    return NULL;
}

void terminal_free(terminal *it)
{
    if (it == NULL) return;
    g3_deframer_free(&it->frames[BY_V21]);
    g3_deframer_free(&it->frames[BY_PAGE]);
    free(it->check);
    free(it->octets);
    free(it);
}

int terminal_is_over(const terminal *it)
{
    return it->phase == IS_OVER;
}

void terminal_answer_ctc(terminal *it)
{
    it->answers_ctc = 1;
}

void terminal_identify(terminal *it, const char *text)
{
    it->identity = text;
}

const g3_figures *terminal_figures(const terminal *it)
{
    return &it->figures;
}

const char *terminal_left_out(const terminal *it)
{
    static const char *const WANT_NONE[] = {"CSI", "TSI", "NSF", "NSS", "CIG", "NSC", "PWD", "SEP", "SUB", "SID", "PSA", "CIA", "ISP", "CSA",
        "TSA", "IRA", "frame"};
    const char *name = frame_name((uint8_t)it->figures.control);
    if (!it->figures.other || it->is_answered) return NULL;
    for (size_t i = 0; i < sizeof WANT_NONE / sizeof WANT_NONE[0]; i++) {
        if (strcmp(name, WANT_NONE[i]) == 0) return NULL;
    }
    return name;
}

const char *terminal_why(const terminal *it)
{
    return it->why;
}

void terminal_tell(terminal *it, const char *name, void (*line)(const char *text))
{
    it->name = name;
    it->line = line;
}

static int hears_pages(uint32_t listens)
{
    return listens == G3_HEARS_PAGES || listens == G3_HEARS_V21_THEN_PAGES;
}

/* The carrier that the page receiver listens for; 0: none. A modem that hears one carrier hears V.21 where that comes first. */
static uint32_t carrier_of(const terminal *it, const g3_state *state)
{
    if (state->listens == G3_HEARS_V21) return 0;
    if (state->listens == G3_HEARS_CHECK) return state->carrier;
    if (state->listens == G3_HEARS_V21_THEN_PAGES && it->kind->hears_one) return 0;
    return it->ctc != 0 ? it->ctc : state->carrier;
}

/* Sets the page receiver to what the library listens for. A check comes with the long training of V.17, and pages with the short one. */
static void listen(terminal *it)
{
    g3_state state = G3_INIT(g3_state);
    it->trained = 0;
    it->checked = 0;
    if (!is_done(it, g3_terminal_state(it->station, &state))) return;
    if (it->listens != G3_HEARS_CHECK) it->listened = it->now;
    it->listens = state.listens;
    it->carrier = carrier_of(it, &state);
    it->kind->listen(it->modem, it->carrier, hears_pages(state.listens) && !it->trains_anew);
}

/* Notes CTC, and the DCS that ends what it said. The third octet is the kind of the frame; the fifth has the speed, as in a DCS (T.30,
 * table 2, bits 11 to 14). */
static void note_ctc(terminal *it, const uint8_t *content, uint64_t length)
{
    static const uint32_t CARRIERS[16] = {
        [0] = G3_V27TER_2400, [2] = G3_V27TER_4800, [3] = G3_V29_7200, [1] = G3_V29_9600, [11] = G3_V17_7200, [9] = G3_V17_9600,
        [10] = G3_V17_12000, [8] = G3_V17_14400};
    enum { DCS = 0x82, CTC = 0x12, SIDE = 1 };
    int kind = content[2] & ~SIDE;
    uint32_t carrier = length >= 5 ? CARRIERS[content[4] >> 2 & 15] : 0;
    if (kind == DCS) it->ctc = 0, it->trains_anew = 0;
    if (kind != CTC || carrier == 0 || !hears_pages(it->listens)) return;
    it->ctc = carrier;
    it->trains_anew = it->ctr = 1;
}

/* Notes a DCS without error correction: its bit 27 is 0 (T.30, table 2). The stations don't take it, and send DIS again; at the second one
 * the call is ended, once the training check that follows must be over. */
static void note_correction(terminal *it, const uint8_t *content, uint64_t length)
{
    enum { DCS = 0x82, SIDE = 1, OCTET = 3 + 3, BIT = 4 };
    if (it->calls || (content[2] & ~SIDE) != DCS) return;
    it->without_correction += length <= OCTET || (content[OCTET] & BIT) == 0;
    if (it->without_correction < 2 || it->why != NULL) return;
    it->why = "the caller sends without error correction";
    it->not_before = it->now + LATEST_CHECK;
    tell(it, it->why, NULL, 0);
    is_done(it, g3_terminal_stop(it->station));
}

/* Takes the figures of the call, and notes a page that came under the number of the last one: the library has stopped the call. */
static void note_progress(terminal *it)
{
    g3_progress far = G3_INIT(g3_progress);
    if (!is_done(it, g3_terminal_progress(it->station, &far))) return;
    it->figures = far.figures;
    if (it->why != NULL || far.refused_why != G3_REFUSED_USED_NUMBER) return;
    it->why = "a page came under the number of the last one";
    tell(it, it->why, NULL, 0);
}

/* Hears the content of a good frame. */
static void hear_content(terminal *it, int receiver, const uint8_t *content, uint64_t length)
{
    int is_ours = is_frame(content, length); /* with the address and the control field of T.30 */
    if (is_ours) tell(it, "hears", frame_name(content[2]), 0);
    else tell(it, "hears what is no frame of a fax, octets", NULL, length);
    it->heard = it->now;
    it->reads = 1;
    if (is_ours && receiver == BY_V21) {
        if (it->answers_ctc) note_ctc(it, content, length);
        note_correction(it, content, length);
    }
    if (receiver == BY_V21) it->is_answered = it->ctr;
    is_done(it, g3_terminal_hear_frame(it->station, content, length)); /* as a line of its own: two receivers never mix */
    note_progress(it);
}

/* Hears octets of a receiver as flags and frames. */
static void hear_frames(terminal *it, int receiver, const uint8_t *octets, uint32_t count)
{
    uint8_t content[MOST_CONTENT];
    uint64_t length = 0;
    if (!is_done(it, g3_deframer_feed(&it->frames[receiver], octets, count))) return;
    while (g3_deframer_next(&it->frames[receiver], content, sizeof content, &length) == G3_OK) hear_content(it, receiver, content, length);
}

static void hear_check(terminal *it, const uint8_t *octets, uint32_t count)
{
    if (it->checked + count > it->check_room) return; /* the rest of a check that is too long says nothing new */
    memcpy(it->check + it->checked, octets, count);
    it->checked += count;
}

/* How many octets of the check that came are given to the library: all, if nine tenths of its 1.5 s were zeros with nothing wrong between
 * them and the modem takes the carrier for good, else none. On a line that spoils an octet each second few frames would come whole. */
static size_t good_check(const terminal *it)
{
    size_t run = 0, longest = 0;
    for (size_t i = 0; i < it->checked; i++) {
        run = it->check[i] == 0 ? run + 1 : 0;
        if (run > longest) longest = run;
    }
    int is_good = longest * 8 * 10 >= rate_of(it->carrier) * 3 / 2 * 9 && !it->kind->is_noisy(it->modem);
    return is_good ? it->checked : 0;
}

/* The signal that may have been a training check is over. */
static void end_check(terminal *it)
{
    if (!it->trained && (it->reads || it->now - it->began < LEAST_CHECK)) return; /* frames, or a crackle */
    size_t good = it->trained ? good_check(it) : 0;
    tell(it, "hears a training check, octets", NULL, it->checked);
    if (is_done(it, g3_terminal_hear_training(it->station, it->check, good))) it->heard = it->now;
}

/* A training check of which nothing was heard is a bad one, once it should have ended: FTT goes out. T2 would be over when the caller's T4
 * is, and both would speak at once, again and again. */
static void miss_check(terminal *it)
{
    if (it->listens != G3_HEARS_CHECK || it->quiet == NEVER || it->now - it->listened < LATEST_CHECK) return;
    tell(it, "misses a training check", NULL, 0);
    if (is_done(it, g3_terminal_hear_training(it->station, it->check, 0))) it->calm = it->now;
    listen(it);
}

static void hear(terminal *it, const int16_t *in)
{
    modem_heard heard;
    it->kind->hear(it->modem, in, &heard);
    if (heard.begins) {
        it->quiet = NEVER;
        it->began = it->now;
        it->reads = 0;
    }
    if (heard.trains) {
        it->trained = 1;
        it->checked = 0;
        tell(it, "is trained", NULL, 0);
    }
    if (heard.fails) tell(it, "can't be trained", NULL, 0);
    hear_frames(it, BY_V21, heard.octets[BY_V21], heard.count[BY_V21]);
    if (heard.length > 0) hear_content(it, BY_V21, heard.content, heard.length);
    if (it->listens == G3_HEARS_CHECK) hear_check(it, heard.octets[BY_PAGE], heard.count[BY_PAGE]);
    else hear_frames(it, BY_PAGE, heard.octets[BY_PAGE], heard.count[BY_PAGE]);
    if (!heard.ends) return;
    it->quiet = it->now;
    if (it->reads || it->now - it->began >= LEAST_SIGNAL) it->calm = it->now;
    if (it->listens == G3_HEARS_CHECK) end_check(it);
    else if (it->trained) it->trains_anew = 0;
    listen(it);
}

/* How long a block by the carrier that is listened for can last. */
static int64_t longest_block(const terminal *it)
{
    return it->carrier != 0 ? (int64_t)BLOCK_BITS * 1000 / rate_of(it->carrier) : 0;
}

/* Ends the call soon, for a reason of the terminal's own. */
static void refuse(terminal *it, const char *why)
{
    it->why = why;
    tell(it, why, NULL, 0);
    terminal_hurry(it);
}

/* Takes what goes on and on for the hiss of the line. Where pages are awaited it may be a block that no receiver is trained by. With frames
 * in it it is another station that never stops: the call is ended. */
static void hush(terminal *it)
{
    int64_t longest = LONGEST_UNREAD + (hears_pages(it->listens) ? longest_block(it) : 0), lasts = it->now - it->began;
    if (it->quiet != NEVER || lasts <= longest) return;
    if (it->now - it->heard > longest) it->kind->hush(it->modem);
    else if (lasts > longest + LONGEST_READ && it->why == NULL) refuse(it, "the other station never stops");
}

/* Whether a wait that runs since a time is over. */
static int is_past(const terminal *it, uint32_t wait, int64_t since)
{
    return wait != 0 && it->now - since >= g3_wait_millis(wait);
}

/* Whether the wait that runs is over. T1 of a caller runs from what was heard last. The others run from our last turn or the last signal,
 * but where crackles go on and on, T1 of an answerer is over too when nothing is read for long. For a modem that hears one carrier a page
 * that doesn't train is silence, so T1 of its answerer is longer by a block. */
static int wait_is_past(const terminal *it, uint32_t wait)
{
    if (wait == G3_T1 && it->calls) return is_past(it, wait, it->heard);
    if (wait == G3_T1 && it->kind->hears_one && hears_pages(it->listens)) return is_past(it, wait, it->calm + longest_block(it));
    return is_past(it, wait, it->calm) || (wait == G3_T1 && it->now - it->heard >= LONGEST_CRACKLE);
}

/* Tells the library of a wait that is over. Waits are looked at while the line is silent. Of the longer ones T5 runs from when the other
 * station said that it isn't ready, and T1 from what was heard last. */
static void end_waits(terminal *it)
{
    g3_state state = G3_INIT(g3_state);
    uint32_t over = 0;
    if (it->quiet == NEVER || !is_done(it, g3_terminal_state(it->station, &state))) return;
    if (state.longer != G3_T5) it->asked = it->now;
    if (is_past(it, state.longer, state.longer == G3_T5 ? it->asked : it->heard)) over = state.longer;
    else if (wait_is_past(it, state.wait)) over = state.wait;
    if (over == 0) return;
    tell(it, "has waited: T", NULL, over);
    if (is_done(it, g3_terminal_wait_over(it->station, over))) it->calm = it->now; /* what is to be said now may have to wait for silence */
}

/* Hands over the pages that were stored; where one isn't kept, DCN takes the place of what was to be said. Whether all were handed over:
 * memory may be refused, and it can be tried again. */
static int hand_over(terminal *it)
{
    g3_page page = G3_EMPTY;
    g3_status status = G3_OK;
    if (it->calls) return 1;
    while ((status = g3_terminal_take_page(it->station, &page)) == G3_OK) {
        int kept = it->pages.keep(it->pages.user, &page);
        g3_page_free(&page);
        if (kept) continue;
        tell(it, "can't keep a page", NULL, 0);
        is_done(it, g3_terminal_hang_up(it->station));
    }
    return status == G3_NOTHING || is_done(it, status);
}

/* Gives each content of the burst to `take`. */
static void read_burst(terminal *it, void (*take)(terminal *it, const uint8_t *content, uint64_t length))
{
    g3_deframer frames = G3_EMPTY;
    uint8_t content[MOST_CONTENT];
    uint64_t length = 0;
    if (g3_deframer_new(&frames) == G3_OK && g3_deframer_feed(&frames, it->octets, (it->burst.bits + 7) / 8) == G3_OK) {
        while (g3_deframer_next(&frames, content, sizeof content, &length) == G3_OK) take(it, content, length);
    }
    g3_deframer_free(&frames);
}

static void note_said(terminal *it, const uint8_t *content, uint64_t length)
{
    g3_signal signal = G3_INIT(g3_signal);
    if (g3_signal_read(content, length, &signal) == G3_OK) it->said = signal.kind;
}

static void tell_said(terminal *it, const uint8_t *content, uint64_t length)
{
    (void)length;
    tell(it, "says", frame_name(content[2]), 0);
}

/* Puts CSI before a DIS, or TSI before a DCS. If memory is refused the burst goes out without. */
static void put_identity(terminal *it)
{
    uint8_t content[IDENTITY_CONTENT];
    uint64_t bits = 0;
    if (it->identity == NULL || (it->said != G3_DIS && it->said != G3_DCS)) return;
    identity_write(it->identity, it->calls, content);
    uint8_t *joined = identity_join(it->octets, it->burst.bits, content, &bits);
    if (joined == NULL) return;
    free(it->octets);
    it->octets = joined;
    it->burst.bits = bits;
}

/* Begins the carrier of the burst. */
static void say_burst(terminal *it)
{
    it->said = 0;
    if (it->burst.carrier == G3_V21) read_burst(it, note_said);
    put_identity(it);
    it->kind->begin_carrier(it->modem, it->burst.carrier, it->burst.carrier != G3_V21 && !it->burst.check, it->octets, it->burst.bits);
    if (it->burst.check) tell(it, "says a training check", NULL, 0);
    else if (it->name != NULL) read_burst(it, tell_said);
    it->phase = IN_CARRIER;
}

/* Begins the next carrier of the turn. G3_NOTHING: there is none. Where memory is refused, it can be tried again. */
static g3_status begin_carrier(terminal *it)
{
    g3_octets handle = G3_EMPTY;
    uint64_t length = 0;
    it->burst.size = sizeof it->burst;
    g3_status status = g3_terminal_next_burst(it->station, &handle, &it->burst);
    if (status == G3_NOTHING || !is_done(it, status)) return status;
    note_progress(it);
    free(it->octets);
    it->octets = octets_of(&handle, &length);
    if (it->octets == NULL) return G3_NO_MEMORY; /* the burst is lost, as on a line */
    it->rings = 0;
    say_burst(it);
    return G3_OK;
}

/* Says CTR, which the library doesn't have: 1 s of flags, the frame and two flags. */
static void say_ctr(terminal *it)
{
    static const uint8_t CTR[] = {0xff, 0x13, 0xc4};
    enum { FLAG = 0x7e, FLAGS_BEFORE = 37, FLAGS_AFTER = 2, ROOM = 64 };
    g3_octets handle = G3_EMPTY;
    uint64_t bits = 0, length = 0;
    it->ctr = 0;
    free(it->octets);
    it->octets = malloc(ROOM);
    if (it->octets == NULL || !is_done(it, g3_frame_write(CTR, sizeof CTR, &handle, &bits))) return;
    memset(it->octets, FLAG, ROOM);
    is_done(it, g3_octets_copy(&handle, it->octets + FLAGS_BEFORE, ROOM - FLAGS_BEFORE - FLAGS_AFTER, &length));
    g3_octets_free(&handle);
    length += FLAGS_BEFORE + FLAGS_AFTER;
    it->burst = (g3_burst){.size = sizeof(g3_burst), .bits = length * 8, .carrier = G3_V21, .last = 1};
    say_burst(it);
}

static int has_ended(const terminal *it)
{
    g3_state state = G3_INIT(g3_state);
    return is_done(it, g3_terminal_state(it->station, &state)) && state.end != 0;
}

/* Begins the turn if there is one and the line has been silent for long enough; leaves after the call's end, once nothing is left to be
 * said: the last turn may be DCN. */
static void speak(terminal *it)
{
    int is_silent = it->quiet != NEVER && it->now - it->quiet >= BEFORE_CARRIER && it->now >= it->not_before;
    if ((!is_silent && !it->hurries) || !hand_over(it)) return;
    if (it->ctr) {
        say_ctr(it);
        return;
    }
    if (begin_carrier(it) != G3_NOTHING || !has_ended(it)) return;
    it->phase = LEAVES;
    it->until = it->now + AFTER_CALL;
}

/* The turn is over: the line is the other station's. */
static void end_turn(terminal *it)
{
    it->phase = LISTENS;
    it->quiet = it->calm = it->now;
    it->kind->forget(it->modem);
    listen(it);
}

/* A carrier has ended. */
static void end_carrier(terminal *it)
{
    it->phase = PAUSES;
    it->until = it->now + BEFORE_CARRIER;
    if (it->burst.last) end_turn(it);
}

/* A caller's CNG goes on while only its own echo is heard. */
static void ring(terminal *it, int16_t *out)
{
    int hears_signal = it->quiet == NEVER && it->now - it->began >= LEAST_SIGNAL;
    if (it->rings && !hears_signal && it->now - it->calm >= BEFORE_CNG) it->kind->say(it->modem, out);
}

static void listen_and_speak(terminal *it, const int16_t *in, int16_t *out)
{
    ring(it, out);
    hear(it, in);
    hush(it);
    miss_check(it);
    end_waits(it);
    speak(it);
}

void terminal_step(terminal *it, const int16_t *in, int16_t *out)
{
    memset(out, 0, SLICE * sizeof *out);
    it->now += SLICE_MILLIS;
    int is_time = it->now >= it->until;
    modem_heard unheard;
    switch (it->phase) {
    case WAITS_FOR_CED:
        it->kind->hear(it->modem, in, &unheard); /* so that it learns how loud the silent line is */
        if (!is_time) break;
        it->kind->begin_tone(it->modem, TONE_CED);
        it->phase = IN_CED;
        it->until = it->now + CED;
        break;
    case IN_CED:
        it->kind->say(it->modem, out);
        if (!is_time) break;
        it->kind->forget(it->modem);
        it->quiet = it->calm = it->heard = it->now;
        it->phase = LISTENS;
        break;
    case LISTENS: listen_and_speak(it, in, out); break;
    case PAUSES:
        if (is_time && begin_carrier(it) == G3_NOTHING) end_turn(it);
        break;
    case IN_CARRIER:
        if (!it->kind->say(it->modem, out)) end_carrier(it);
        break;
    case LEAVES:
        if (is_time) it->phase = IS_OVER;
        break;
    }
}

void terminal_hurry(terminal *it)
{
    it->hurries = 1;
    it->ctr = 0;
    is_done(it, g3_terminal_stop(it->station));
    if (it->phase == IN_CARRIER && it->said != G3_DCN) it->kind->cut(it->modem);
}

void terminal_lose(terminal *it)
{
    hand_over(it);
    is_done(it, g3_terminal_lost(it->station));
    it->phase = IS_OVER;
}
