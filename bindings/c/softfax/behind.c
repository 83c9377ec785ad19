#include "behind.h"
#include "class1.h"
#include <stdlib.h>
#include <string.h>

enum { FIRST_RING = 200, RINGS = 6000 };

typedef struct behind {
    const trial *kind;
    const behind_way *way;
    int calls, stage, has_failed;
    int64_t now;
    duct duct;
    soft *soft;
    modem *modem;
    party inner; /* the terminal's end, once the call is on */
} behind;

static int take(ring *from, uint8_t *octets, int room)
{
    return ring_take(from, octets, room);
}

/* Puts as many as fit. */
static int put(ring *to, const uint8_t *octets, int count)
{
    int fits = RING_ROOM - to->count < count ? RING_ROOM - to->count : count;
    ring_put(to, octets, fits);
    return fits;
}

static int host_read(void *user, uint8_t *octets, int room) { return take(&((duct *)user)->to_host, octets, room); }
static int host_write(void *user, const uint8_t *octets, int count) { return put(&((duct *)user)->to_modem, octets, count); }
static int modem_read(void *user, uint8_t *octets, int room) { return take(&((duct *)user)->to_modem, octets, room); }
static int modem_write(void *user, const uint8_t *octets, int count) { return put(&((duct *)user)->to_host, octets, count); }

port duct_host(duct *it)
{
    return (port){it, host_read, host_write, NULL, NULL};
}

port duct_modem(duct *it)
{
    return (port){it, modem_read, modem_write, NULL, NULL};
}

/* There is no exchange: who dials or answers is on the line. */
static void on_event(void *user, int what)
{
    behind *it = user;
    if (what != SOFT_HANGS_UP) it->way->kind->connect(it->soft, what == SOFT_DIALS);
}

/* A slice of the terminal, which is made when the call is on. */
static void step_terminal(behind *it)
{
    int16_t unused[SLICE] = {0};
    if (it->inner.it == NULL && !trial_ours_by(&it->inner, it->kind, it->calls, &modem_of_class1, it->modem)) {
        it->has_failed = 1;
        class1_hang_up(it->modem);
        return;
    }
    if (class1_is_lost(it->modem)) it->has_failed = 1;
    if (it->has_failed || it->inner.is_over(it->inner.it)) class1_hang_up(it->modem);
    else it->inner.step(it->inner.it, unused, unused);
}

static void behind_step(void *user, const int16_t *in, int16_t *out)
{
    behind *it = user;
    it->now += SLICE_MILLIS;
    int rings = !it->calls && it->stage == CLASS1_WAITS && (it->now % RINGS == 0 || it->now == FIRST_RING);
    if (rings) it->way->kind->ring(it->soft);
    it->way->kind->step(it->soft, in, out);
    it->stage = class1_step(it->modem, it->now);
    if (it->stage == CLASS1_IS_ON) step_terminal(it);
}

static int behind_is_over(void *user)
{
    return ((behind *)user)->stage == CLASS1_IS_OVER;
}

static const char *behind_ending(void *user)
{
    static char why[2][160]; /* of an answerer and a caller: it outlives the modem */
    behind *it = user;
    if (it->inner.it != NULL && !it->has_failed) return it->inner.ending(it->inner.it);
    if (class1_why(it->modem) == NULL) return "no call";
    snprintf(why[it->calls], sizeof why[it->calls], "%s", class1_why(it->modem));
    return why[it->calls];
}

static void behind_leave(void *user, outcome *out)
{
    behind *it = user;
    if (it->inner.it != NULL) it->inner.leave(it->inner.it, out);
    if (it->soft != NULL) it->way->kind->free(it->soft);
    modem_of_class1.free(it->modem);
    free(it);
}

int trial_behind(party *out, const trial *kind, int calls, const behind_way *way)
{
    static const behind fresh;
    behind *it = malloc(sizeof *it);
    if (it == NULL) return 0;
    *it = fresh;
    it->kind = kind;
    it->way = way;
    it->calls = calls;
    class1_setup setup = {.number = calls ? "5551234" : NULL, .rings = 1, .trace = kind->tells != NULL ? stderr : NULL};
    port host = duct_host(&it->duct), line = duct_modem(&it->duct);
    it->modem = class1_new(&host, &setup);
    it->soft = way->kind->make(&line, &way->ways, on_event, it);
    if (it->modem != NULL && it->soft != NULL) {
        *out = (party){it, behind_step, behind_is_over, behind_ending, behind_leave};
        return 1;
    }
    if (it->soft != NULL) way->kind->free(it->soft);
    modem_of_class1.free(it->modem);
    free(it);
    return 0;
}
