/* The Class 1 modem of libspandsp, for tests. */
#include "soft.h"
#include <stdlib.h>
#include <string.h>
#include <spandsp.h>

enum { AFTER_XOFF = 512 };    /* octets that may still come */
enum { MOST_PER_SLICE = 58 }; /* octets of a tty of 115,200 bit/s in 5 ms */
enum { MOST_LATE = 4096 };    /* pieces that are under way to the host */

struct soft {
    t31_state_t *t31;
    port host;
    soft_ways ways;
    void (*event)(void *user, int what);
    void *user;
    int is_ready, is_in_call;
    int64_t now;
    uint64_t after;           /* octets that have come since XOFF */
    ring late;                /* octets that are under way to the host, and when each piece is there */
    struct { int64_t at; int count; } pieces[MOST_LATE];
    int first, count;
};

static void put(soft *it, const uint8_t *octets, int count)
{
    if (it->ways.mute > 0 && it->now >= it->ways.mute) return;
    it->host.write(it->host.user, octets, count);
}

/* Whether octets have a text: a result may come with its line ends or without. */
static int has(const uint8_t *octets, size_t count, const char *text)
{
    size_t length = strlen(text);
    for (size_t at = 0; at + length <= count; at++) {
        if (memcmp(octets + at, text, length) == 0) return 1;
    }
    return 0;
}

static int on_octets(at_state_t *at, void *user, const uint8_t *octets, size_t count)
{
    soft *it = user;
    (void)at;
    if (it->ways.silent && has(octets, count, "+FCERROR")) return 0;
    if (it->ways.late == 0 || it->count == MOST_LATE || !ring_put(&it->late, octets, (int)count)) {
        put(it, octets, (int)count);
        return 0;
    }
    int last = (it->first + it->count++) % MOST_LATE;
    it->pieces[last].at = it->now + it->ways.late;
    it->pieces[last].count = (int)count;
    return 0;
}

static void set_ready(soft *it, int is)
{
    static const uint8_t XON = 17, XOFF = 19;
    if (it->is_ready == is) return;
    it->is_ready = is;
    it->after = 0;
    if (it->ways.xoff) put(it, is ? &XON : &XOFF, 1);
}

static int on_control(t31_state_t *t31, void *user, int op, const char *text)
{
    soft *it = user;
    (void)t31;
    if (op == AT_MODEM_CONTROL_CALL) it->event(it->user, SOFT_DIALS);
    if (op == AT_MODEM_CONTROL_ANSWER) it->event(it->user, SOFT_ANSWERS);
    if (op == AT_MODEM_CONTROL_HANGUP && it->is_in_call) it->event(it->user, SOFT_HANGS_UP);
    if (op == AT_MODEM_CONTROL_HANGUP) it->is_in_call = 0;
    if (op == AT_MODEM_CONTROL_CTS) set_ready(it, text != NULL);
    return 0;
}

static soft *spandsp_new(const port *host, const soft_ways *ways, void (*event)(void *user, int what), void *user)
{
    soft *it = calloc(1, sizeof *it);
    if (it == NULL) return NULL;
    it->host = *host;
    it->ways = *ways;
    it->event = event;
    it->user = user;
    it->is_ready = 1;
    it->t31 = t31_init(NULL, on_octets, it, on_control, it, NULL, NULL);
    if (it->t31 != NULL) {
        t31_set_transmit_on_idle(it->t31, TRUE);
        return it;
    }
    free(it);
    return NULL;
}

static void spandsp_free(soft *it)
{
    t31_free(it->t31);
    free(it);
}

static void spandsp_ring(soft *it)
{
    t31_call_event(it->t31, AT_CALL_EVENT_ALERTING);
}

static void spandsp_connect(soft *it, int calls)
{
    it->is_in_call = 1;
    t31_call_event(it->t31, calls ? AT_CALL_EVENT_CONNECTED : AT_CALL_EVENT_ANSWERED);
}

/* Octets of the host; a command comes whole, since it is written so. */
static void take(soft *it, const uint8_t *octets, int count)
{
    static const char FAR[] = "AT+FAR=1";
    int is_command = count > 2 && memcmp(octets, "AT", 2) == 0 && octets[count - 1] == '\r';
    if (it->ways.echoes && is_command) put(it, octets, count);
    if (it->ways.echoes && is_command) put(it, (const uint8_t *)"\n", 1);
    if (it->ways.fixed && count >= (int)sizeof FAR && memcmp(octets, FAR, sizeof FAR - 1) == 0) {
        put(it, (const uint8_t *)"\r\nERROR\r\n", 9);
        return;
    }
    if (!it->is_ready && (it->after += (uint64_t)count) > AFTER_XOFF) return; /* lost */
    t31_at_rx(it->t31, (const char *)octets, count);
}

static void read_host(soft *it)
{
    uint8_t octets[MOST_PER_SLICE];
    if (!it->is_ready && !it->ways.xoff) return; /* as with RTS and CTS */
    int count = it->host.read(it->host.user, octets, sizeof octets);
    if (count > 0) take(it, octets, count);
}

/* Gives the host what is there by now. */
static void give_late(soft *it)
{
    uint8_t octets[RING_ROOM];
    for (; it->count > 0 && it->pieces[it->first].at <= it->now; it->count--) {
        put(it, octets, ring_take(&it->late, octets, it->pieces[it->first].count));
        it->first = (it->first + 1) % MOST_LATE;
    }
}

static void spandsp_step(soft *it, const int16_t *in, int16_t *out)
{
    int16_t copy[SLICE]; /* t31_rx may write into what it reads */
    it->now += SLICE_MILLIS;
    read_host(it);
    memcpy(copy, in, sizeof copy);
    memset(out, 0, SLICE * sizeof *out);
    if (it->is_in_call) {
        t31_rx(it->t31, copy, SLICE);
        t31_tx(it->t31, out, SLICE);
    }
    give_late(it);
}

const soft_kind soft_of_spandsp = {spandsp_new, spandsp_free, spandsp_ring, spandsp_connect, spandsp_step};
