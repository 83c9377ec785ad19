/* A Class 1 modem of T.31 over the line of bits.c, for tests without libspandsp. It knows what softfax says. A page goes out while it comes
 * from the host: one that comes too late is cut off. */
#include "soft.h"
#include "bits.h"
#include "carriers.h"
#include <stdio.h>
#include <stdlib.h>
#include <string.h>

enum { ETX = 3, DLE = 16, XON = 17, XOFF = 19, CAN = 24, LAST_FRAME = 0x10, FLAG = 0x7e, FLAGS_BEFORE = 37, FLAGS_AFTER = 2 };
enum { BEFORE_CED = 200, CED = 2600, AFTER_CED = 75 };
enum { MOST_BITS = 1 << 19, MOST_FRAMES = 8 };
enum { AFTER_XOFF = 100, MOST_AHEAD = 500, LEAST_AHEAD = 100 }; /* octets that may still come; milliseconds of a page that has come */
enum doing { IDLE, DIALS, BEFORE_ANSWER, IN_CED, ANSWERED, SILENCE, FTH, FTM, SENDS, FRH, FRM, FRM_DATA };

struct soft {
    port host;
    soft_ways ways;
    void (*event)(void *user, int what);
    void *user;
    modem *modem;
    g3_deframer deframer;
    int doing, escaped, is_last, is_trained, is_noisy;
    int64_t now, until, connected;
    int is_full, after;           /* is_full: it has said XOFF; after: octets that have come since */
    char line[80];
    int filled;
    uint32_t carrier;
    int brief;
    uint8_t said[MOST_BITS / 8];  /* the burst that goes out */
    uint64_t bits;
    uint8_t frame[MOST_CONTENT + 2];
    int length;
    uint8_t frames[MOST_FRAMES][MOST_CONTENT]; /* that came, and that the host hasn't asked for */
    uint64_t lengths[MOST_FRAMES];
    int count;
    int cans;                     /* how many CANs have come */
    int64_t says_at;              /* when what follows a CAN is said; 0: nothing is */
};

/* What is said to the host is lost once the modem is mute. */
static void put(soft *it, const uint8_t *octets, int count)
{
    if (it->ways.mute > 0 && it->now >= it->ways.mute) return;
    it->host.write(it->host.user, octets, count);
}

static void result(soft *it, const char *text, int doing)
{
    char line[sizeof it->line + 4];
    put(it, (const uint8_t *)line, snprintf(line, sizeof line, "\r\n%s\r\n", text));
    it->doing = doing;
}

static void put_data(soft *it, const uint8_t *octets, uint64_t count)
{
    uint8_t doubled[2 * MOST_HEARD];
    int filled = 0;
    for (uint64_t i = 0; i < count; i++) {
        if (octets[i] == DLE) doubled[filled++] = DLE;
        doubled[filled++] = octets[i];
    }
    if (filled > 0) put(it, doubled, filled);
}

static void put_end(soft *it, const char *text)
{
    static const uint8_t END[] = {DLE, ETX};
    put(it, END, 2);
    result(it, text, IDLE);
}

/* Commands */

/* Sets the carrier by its number of T.31; whether there is one. */
static int set_carrier(soft *it, const char *number)
{
    static const int NUMBERS[][2] = {
        [G3_V27TER_2400] = {24, 24}, [G3_V27TER_4800] = {48, 48}, [G3_V29_7200] = {72, 72}, [G3_V29_9600] = {96, 96},
        [G3_V17_7200] = {73, 74}, [G3_V17_9600] = {97, 98}, [G3_V17_12000] = {121, 122}, [G3_V17_14400] = {145, 146}};
    for (it->carrier = G3_V27TER_2400; it->carrier <= G3_V17_14400; it->carrier++) {
        for (it->brief = 0; it->brief < 2; it->brief++) {
            if (NUMBERS[it->carrier][it->brief] == atoi(number)) return 1;
        }
    }
    return 0;
}

static void begin_burst(soft *it, int doing)
{
    it->bits = 0;
    it->length = it->escaped = it->is_full = 0;
    it->connected = it->now;
    if (doing == FTH) memset(it->said, FLAG, FLAGS_BEFORE), it->bits = FLAGS_BEFORE * 8, it->carrier = G3_V21;
    else modem_of_sound.begin_carrier(it->modem, it->carrier, it->brief, it->said, 0);
    result(it, "CONNECT", doing);
}

static void obey(soft *it, const char *line)
{
    if (strcmp(line, "AT+FTM=?") == 0 || strcmp(line, "AT+FRM=?") == 0) {
        result(it, "24,48,72,73,74,96,97,98,121,122,145,146", IDLE);
        result(it, "OK", IDLE);
    } else if (strncmp(line, "ATD", 3) == 0) {
        it->doing = DIALS;
        it->event(it->user, SOFT_DIALS);
    } else if (strcmp(line, "ATA") == 0) it->event(it->user, SOFT_ANSWERS);
    else if (strncmp(line, "ATH", 3) == 0) {
        it->event(it->user, SOFT_HANGS_UP);
        result(it, "OK", IDLE);
    } else if (strncmp(line, "AT+FRS=", 7) == 0) it->doing = SILENCE, it->until = it->now + atoi(line + 7) * 10;
    else if (strcmp(line, "AT+FTH=3") == 0) begin_burst(it, FTH);
    else if (strcmp(line, "AT+FRH=3") == 0) it->doing = FRH;
    else if (strncmp(line, "AT+FTM=", 7) == 0 && set_carrier(it, line + 7)) begin_burst(it, FTM);
    else if (strncmp(line, "AT+FRM=", 7) == 0 && set_carrier(it, line + 7)) {
        it->doing = FRM;
        modem_of_sound.listen(it->modem, it->carrier, it->brief);
    } else result(it, strncmp(line, "AT", 2) != 0 || (it->ways.fixed && strcmp(line, "AT+FAR=1") == 0) ? "ERROR" : "OK", IDLE);
}

/* The host has given a frame whole, or a page. */
static void end_host_data(soft *it)
{
    g3_octets handle = G3_EMPTY;
    uint8_t frame[512];
    uint64_t bits = 0, length = 0;
    if (it->doing == FTM) {
        bits_extend(it->modem, (uint64_t)it->length * 8);
        it->doing = SENDS;
        return;
    }
    g3_status status = g3_frame_write(it->frame, (size_t)it->length, &handle, &bits);
    if (status == G3_OK) status = g3_octets_copy(&handle, frame, sizeof frame, &length);
    if (status == G3_OK) it->bits = append_bits(it->said, it->bits, frame, 0, bits);
    g3_octets_free(&handle);
    it->is_last = it->length < 2 || (it->frame[1] & LAST_FRAME) != 0;
    it->length = 0;
    if (!it->is_last) {
        result(it, "CONNECT", FTH);
        return;
    }
    memset(frame, FLAG, FLAGS_AFTER);
    it->bits = append_bits(it->said, it->bits, frame, 0, FLAGS_AFTER * 8);
    modem_of_sound.begin_carrier(it->modem, G3_V21, 0, it->said, it->bits);
    it->doing = SENDS;
}

static void take_host_data(soft *it, uint8_t octet)
{
    if (!it->escaped && octet == DLE) {
        it->escaped = 1;
        return;
    }
    int is_end = it->escaped && octet == ETX;
    it->escaped = 0;
    if (is_end) end_host_data(it);
    else if (it->doing == FTM && it->length < MOST_BITS / 8) it->said[it->length++] = octet;
    else if (it->doing == FTH && it->length < MOST_CONTENT) it->frame[it->length++] = octet;
}

/* Says XOFF while more of a page has come than the line needs for a while. */
static void hold_back(soft *it)
{
    int64_t ahead = (int64_t)it->length * 8000 / rate_of(it->carrier) - (it->now - it->connected);
    int is_full = it->is_full ? ahead > LEAST_AHEAD : ahead > MOST_AHEAD;
    uint8_t says = is_full ? XOFF : XON;
    if (it->doing != FTM || !it->ways.xoff || is_full == it->is_full) return;
    put(it, &says, 1);
    it->is_full = is_full;
    it->after = 0;
}

/* Ends what it does, and says one thing after the other, a CAN each; what it says behind its OK comes a little later. */
static void obey_can(soft *it)
{
    static const char *const BEFORE[] = {"NO CARRIER", "CONNECT\r\n\xff\x13\x80\x10\x03\r\nOK", "+FCERROR", "~\x13?\x18", "OK", ""};
    it->cans++;
    if (it->ways.chatty) result(it, BEFORE[it->cans % 6], IDLE);
    if (it->ways.chatty) it->says_at = it->now + 10;
    result(it, "OK", IDLE);
}

/* What a modem says behind the result of a CAN. */
static void say_more(soft *it)
{
    static const char *const AFTER[] = {
        "\r\nOK\r\n", "\r\nNO CARRIER\r\n", "\x13", "\r\nCONNECT\r\n\xff\xc8\xfa\x10\x03\r\nOK\r\n", "\r\nERROR\r\n"};
    const char *text = AFTER[it->cans % 5];
    if (it->says_at == 0 || it->now < it->says_at) return;
    it->says_at = 0;
    put(it, (const uint8_t *)text, (int)strlen(text));
}

static void take_host_octet(soft *it, uint8_t octet)
{
    if (it->doing == FTM && it->is_full && ++it->after > AFTER_XOFF) return; /* lost */
    if (it->doing == FTH || it->doing == FTM) take_host_data(it, octet);
    else if (octet == CAN && it->doing != IDLE) obey_can(it);
    else if (octet == '\r') {
        it->line[it->filled] = 0;
        it->filled = 0;
        if (it->ways.echoes) result(it, it->line, it->doing);
        if (it->doing == IDLE) obey(it, it->line);
    } else if (octet > ' ' && it->filled + 1 < (int)sizeof it->line) it->line[it->filled++] = (char)octet;
}

/* The line */

/* Hands over the first frame that waits, with two octets in place of its check sequence. */
static void give_frame(soft *it)
{
    static const uint8_t SEQUENCE[2];
    int is_first_of_call = it->doing == DIALS;
    if (it->count == 0) return;
    result(it, "CONNECT", IDLE);
    if (it->ways.repeats) result(it, "CONNECT", IDLE);
    put_data(it, it->frames[0], it->lengths[0]);
    put_data(it, SEQUENCE, 2);
    put_end(it, "OK");
    it->count--;
    memmove(it->frames[0], it->frames[1], sizeof it->frames[0] * (MOST_FRAMES - 1));
    memmove(it->lengths, it->lengths + 1, sizeof it->lengths[0] * (MOST_FRAMES - 1));
    if (is_first_of_call) modem_of_sound.listen(it->modem, 0, 0);
}

static void hear(soft *it, const int16_t *in)
{
    modem_heard heard;
    modem_of_sound.hear(it->modem, in, &heard);
    if (heard.begins) it->is_noisy = 1;
    if (heard.ends) it->is_noisy = 0;
    if (heard.count[BY_V21] > 0 && g3_deframer_feed(&it->deframer, heard.octets[BY_V21], heard.count[BY_V21]) == G3_OK) {
        while (it->count < MOST_FRAMES
            && g3_deframer_next(&it->deframer, it->frames[it->count], MOST_CONTENT, &it->lengths[it->count]) == G3_OK) it->count++;
    }
    if (it->doing == SILENCE && it->is_noisy) it->until = it->now + 70;
    if (it->doing == FRM && heard.trains) result(it, "CONNECT", FRM_DATA);
    if (it->doing == FRM_DATA) put_data(it, heard.octets[BY_PAGE], heard.count[BY_PAGE]);
    if (it->doing == FRM_DATA && heard.ends) put_end(it, "NO CARRIER");
    if (it->doing == FRM && it->count > 0 && !it->ways.silent) result(it, "+FCERROR", IDLE);
    if (it->doing == FRM && heard.ends) modem_of_sound.listen(it->modem, it->carrier, it->brief);
    if (it->doing == FRH || it->doing == DIALS) give_frame(it);
    if (it->doing == FRH && heard.ends) result(it, "NO CARRIER", IDLE);
}

/* What the modem does by the clock. */
static void go_on(soft *it, int16_t *out)
{
    int is_time = it->now >= it->until;
    if (it->doing == SILENCE && is_time) result(it, "OK", IDLE);
    if (it->doing == DIALS) modem_of_sound.say(it->modem, out);
    if (it->doing == IN_CED) modem_of_sound.say(it->modem, out);
    if (it->doing == FTM) bits_extend(it->modem, (uint64_t)it->length * 8), modem_of_sound.say(it->modem, out);
    if (it->doing == SENDS && !modem_of_sound.say(it->modem, out)) {
        modem_of_sound.forget(it->modem);
        it->count = 0;
        result(it, "OK", IDLE);
    }
    if (!is_time) return;
    if (it->doing == BEFORE_ANSWER) {
        modem_of_sound.begin_tone(it->modem, TONE_CED);
        it->doing = IN_CED, it->until = it->now + CED;
    } else if (it->doing == IN_CED) it->doing = ANSWERED, it->until = it->now + AFTER_CED;
    else if (it->doing == ANSWERED) begin_burst(it, FTH);
}

static void t31_step(soft *it, const int16_t *in, int16_t *out)
{
    uint8_t octets[256];
    int count = 0;
    it->now += SLICE_MILLIS;
    memset(out, 0, SLICE * sizeof *out);
    while ((count = it->host.read(it->host.user, octets, sizeof octets)) > 0) {
        for (int i = 0; i < count; i++) take_host_octet(it, octets[i]);
    }
    hold_back(it);
    say_more(it);
    if (it->doing != SENDS && it->doing != FTM && it->doing != IN_CED) hear(it, in);
    go_on(it, out);
}

static void t31_free(soft *it)
{
    if (it == NULL) return;
    modem_of_sound.free(it->modem);
    g3_deframer_free(&it->deframer);
    free(it);
}

static soft *t31_new(const port *host, const soft_ways *ways, void (*event)(void *user, int what), void *user)
{
    static const soft fresh;
    soft *it = malloc(sizeof *it);
    if (it == NULL) return NULL;
    *it = fresh;
    it->host = *host;
    it->ways = *ways;
    it->event = event;
    it->user = user;
    it->modem = modem_new();
    if (it->modem != NULL && g3_deframer_new(&it->deframer) == G3_OK) return it;
    t31_free(it);
    return NULL;
}

static void t31_ring(soft *it)
{
    if (it->doing == IDLE) result(it, "RING", IDLE);
}

static void t31_connect(soft *it, int calls)
{
    if (calls) modem_of_sound.begin_tone(it->modem, TONE_CNG);
    else it->doing = BEFORE_ANSWER, it->until = it->now + BEFORE_CED;
}

const soft_kind soft_of_bits = {t31_new, t31_free, t31_ring, t31_connect, t31_step};
