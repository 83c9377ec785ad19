#include "line.h"
#include "paper.h"

static const double FULL = 32767, HIT = -10;
static const double OF_SINE = 0.70710678; /* the deviation of noise is that of a sine of its level */
enum { HIT_MILLIS = 50, SIGNALS_OF_ANSWERER = 2 /* CED and DIS */, GAP = 4 /* slices */ };

/* The height that a signal of full scale has at a level, of a sine, in dBm0 to the tenth. */
static double height(double level)
{
    double factor = 1;
    for (double left = 3.14 - level; left > 0.05; left -= 0.1) factor *= 0.98855309465693882; /* 0.1 dB */
    return FULL * factor;
}

void line_new(line *out, const line_kind *kind, uint64_t seed)
{
    static const line fresh;
    *out = fresh;
    out->kind = *kind;
    out->noise = kind->noise != 0 ? height(kind->noise) * OF_SINE : 0;
    out->strike = height(HIT) * OF_SINE;
    out->echo = kind->echo != 0 ? height(kind->echo) / height(0) : 0;
    out->chance = seed * 2 + 1;
    for (int i = 0; i < 8; i++) draw(&out->chance);
    out->caller.delay = draw(&out->chance) % SLICE;
    out->answerer.delay = draw(&out->chance) % SLICE;
    if (kind->hum != 0) out->caller.hum[1] = out->answerer.hum[1] = -height(kind->hum) * 0.03925980; /* the sine of its step */
}

/* A number that is normally distributed, with variance 1: the sum of twelve that are even between 0 and 1. */
static double normal(line *it)
{
    double sum = -6;
    for (int i = 0; i < 12; i++) sum += draw(&it->chance) / 4294967296.0;
    return sum;
}

/* The next sample of 50 Hz: a sine by its two samples before and twice the cosine of its step. */
static double hum_sample(wire *it)
{
    double next = 1.9984580696 * it->hum[0] - it->hum[1];
    it->hum[1] = it->hum[0];
    return it->hum[0] = next;
}

/* Counts the signals of a direction; whether one begins with this slice. */
static int count_signals(wire *it, const int16_t *said)
{
    int sounds = 0;
    for (int i = 0; i < SLICE; i++) sounds |= said[i] != 0;
    int begins = sounds && (it->silent >= GAP || it->signals == 0);
    it->silent = sounds ? 0 : it->silent + 1;
    it->signals += begins;
    it->lasted = begins ? 0 : it->lasted + 1;
    return begins;
}

/* Whether the caller's carrier is cut in this slice. */
static int is_cut(const line *it)
{
    int millis = it->caller.lasted * SLICE_MILLIS;
    return it->kind.cut != 0 && it->commands == it->kind.cut && it->caller.silent == 0 && millis >= it->kind.from
        && millis < it->kind.from + it->kind.lasts;
}

/* Whether noise strikes a direction in this slice, by chance. */
static int is_hit(line *it, wire *direction)
{
    int every = it->kind.every / SLICE_MILLIS;
    if (direction->hit > 0) return direction->hit--;
    if (every == 0 || draw(&it->chance) % (uint32_t)every != 0) return 0;
    direction->hit = (int)(draw(&it->chance) % (2 * HIT_MILLIS / SLICE_MILLIS));
    return 1;
}

static int16_t clipped(double sample)
{
    return sample > FULL ? 32767 : sample < -FULL ? -32767 : (int16_t)(sample < 0 ? sample - 0.5 : sample + 0.5);
}

/* Keeps what is said: it is heard later, and its echo later still. */
static void keep(wire *it, const int16_t *said)
{
    for (int i = 0; i < SLICE; i++) it->past[it->at++ % PAST] = said[i];
}

/* A slice of one direction, with the echo of the other one. */
static void carry(line *it, wire *direction, const wire *other, int hit, int16_t *heard)
{
    uint32_t at = direction->at - SLICE - direction->delay, echo_at = other->at - SLICE - (uint32_t)it->kind.late * 8;
    for (int i = 0; i < SLICE; i++) {
        int16_t said = direction->past[(at + (uint32_t)i) % PAST];
        double sample = said;
        if (it->noise > 0 && (it->kind.always || said != 0)) sample += it->noise * normal(it);
        if (hit) sample += it->strike * normal(it);
        if (it->kind.hum != 0) sample += hum_sample(direction);
        sample += it->echo * other->past[(echo_at + (uint32_t)i) % PAST];
        heard[i] = clipped(sample);
    }
}

void line_carry(line *it, const int16_t *caller, const int16_t *answerer, int16_t *to_caller, int16_t *to_answerer)
{
    count_signals(&it->answerer, answerer);
    int begins = count_signals(&it->caller, caller);
    it->commands += begins && it->answerer.signals >= SIGNALS_OF_ANSWERER && it->answerer.silent > 0; /* CNG amid DIS is none */
    int cut = is_cut(it), hit = is_hit(it, &it->caller);
    keep(&it->caller, caller);
    keep(&it->answerer, answerer);
    carry(it, &it->caller, &it->answerer, cut || hit, to_answerer);
    carry(it, &it->answerer, &it->caller, is_hit(it, &it->answerer), to_caller);
}
