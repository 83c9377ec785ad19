#include "sound_call.h"
#include "sound.h"
#include "stop.h"
#include "told.h"
#include <string.h>

enum { PIECE = 4 * SLICE };
enum { AFTER_LINE = 25 };        /* pieces of silence that are heard after the other side's end, 0.5 s: what it said last may be DCN */
/* how often a stream may stall, SOUND_PATIENCE each, in a call that is to end, by how */
static const int MOST_STALLS[] = {[STOP_IN_ORDER] = 30, [STOP_SOON] = 5, [STOP_AT_ONCE] = 0};

typedef struct streams {
    sound in, out;
    FILE *wav;
} streams;

/* Opens what is said. Nobody may read the pipe yet: then it is tried again, until the call is stopped. */
static int open_out(call *it, streams *to)
{
    int opens = SOUND_STALLS;
    while (opens == SOUND_STALLS && call_heed(it) == STOP_NOT) opens = sound_open_out(&to->out, it->given->tx);
    return opens == SOUND_IS_THERE;
}

/* Opens the streams. Of two that are joined by two pipes one opens first what it says, and the other what it hears. */
static int open_streams(call *it, streams *to)
{
    const options *given = it->given;
    if (given->wav != NULL && (to->wav = wav_new(given->wav)) == NULL) return 0;
    if (given->calls && !open_out(it, to)) return 0;
    if (sound_open_in(&to->in, given->rx) != SOUND_IS_THERE) return 0;
    return given->calls || open_out(it, to);
}

/* Whether a stream that has stalled so often is given up. */
static int gives_up(call *it, int stalls)
{
    int level = stalls > 0 ? call_heed(it) : STOP_NOT;
    return level != STOP_NOT && stalls > MOST_STALLS[level];
}

static int writes(call *it, streams *to, const int16_t *said)
{
    int is = SOUND_STALLS;
    for (int stalls = 0; is == SOUND_STALLS; stalls++) {
        if (gives_up(it, stalls)) return SOUND_ENDS;
        is = sound_write(&to->out, said, PIECE);
    }
    return is;
}

static int reads(call *it, streams *from, int16_t *heard)
{
    int is = SOUND_STALLS;
    for (int stalls = 0; is == SOUND_STALLS; stalls++) {
        if (gives_up(it, stalls)) return SOUND_ENDS;
        is = sound_read(&from->in, heard, PIECE);
    }
    return is;
}

static void step(call *it, const streams *with, const int16_t *heard, int16_t *said)
{
    for (int at = 0; at < PIECE; at += SLICE) call_step(it, heard + at, said + at);
    if (with->wav != NULL) wav_write(with->wav, said, heard, PIECE);
}

/* Runs the call until it is over; returns whether no stream failed. A piece is said before one is heard, or two would wait for each
 * other. */
static int run(call *it, streams *over)
{
    int16_t heard[PIECE], said[PIECE] = {0};
    int speaks = SOUND_IS_THERE, hears = SOUND_IS_THERE, left = AFTER_LINE;
    while (!call_is_over(it) && speaks != SOUND_FAILS && hears != SOUND_FAILS) {
        if (speaks == SOUND_IS_THERE) speaks = writes(it, over, said);
        if (hears == SOUND_IS_THERE) hears = reads(it, over, heard);
        else if (left-- > 0) memset(heard, 0, sizeof heard);
        else terminal_lose(it->terminal);
        step(it, over, heard, said);
    }
    if (speaks == SOUND_IS_THERE) speaks = writes(it, over, said);
    if (!call_is_over(it)) terminal_lose(it->terminal);
    return speaks != SOUND_FAILS && hears != SOUND_FAILS;
}

int sound_call_run(call *it)
{
    streams over = {.in = {.stream = -1}, .out = {.stream = -1}};
    modem *modem = modem_new();
    if (modem == NULL) told_fault("a modem", g3_status_text(G3_NO_MEMORY));
    int is_well = modem != NULL && call_begin(it, G3_V17, &modem_of_sound, modem) && open_streams(it, &over) && run(it, &over);
    if (over.wav != NULL) is_well &= wav_close(over.wav, it->given->wav);
    if (it->terminal != NULL && !call_is_over(it)) terminal_lose(it->terminal);
    is_well &= sound_close(&over.in) & sound_close(&over.out);
    modem_of_sound.free(modem);
    return is_well;
}
