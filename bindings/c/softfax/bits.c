/* A modem of plain bits, for tests of a terminal where libspandsp isn't installed: each sample of a carrier says which carrier it is and
 * has up to two bits. No telephone line carries it. It is as strict as a real one: a page receiver is trained only where it listened for
 * that carrier, and in that way, long or brief, before the carrier began.
 *
 *     bit 14: 1; 12, 13: the state; 8 to 11: the carrier; 4 to 7: a check; 2, 3: how many bits; 0, 1: the bits
 *
 * A sample with a wrong check is noise. Silence is zeros. */
#include "bits.h"
#include "g3fax.h"
#include <stdlib.h>
#include <string.h>

enum { TRAINS_LONG, TRAINS_BRIEF, HAS_BITS };  /* states of a carrier */
enum { LONG_TRAINING = 8000, BRIEF_TRAINING = 1600, TONE = 0x2000, RATE = 8000, FALLS = 6 };

struct modem {
    int tone, goes_on;            /* the tone that goes out, 0 none; the samples that it has had */
    uint32_t says;                /* the carrier that goes out */
    int state, trains;            /* its state, and how many samples of training are left */
    const uint8_t *octets;
    uint64_t bits, at;
    uint32_t due;                 /* bits that are due, in parts of a second's samples */
    uint32_t listens, brief;      /* what the page receiver listens for */
    int training, trained;        /* how many samples of its training it has heard; whether it is trained */
    int is_open, zeros;           /* whether there is a signal; slices of silence */
    uint8_t partial[RECEIVERS], filled[RECEIVERS];
    modem_heard *heard;
};

modem *modem_new(void)
{
    static const modem fresh;
    modem *it = malloc(sizeof *it);
    if (it != NULL) *it = fresh;
    return it;
}

static void modem_free(modem *it)
{
    free(it);
}

static void modem_begin_tone(modem *it, int tone)
{
    it->tone = tone + 1;
    it->goes_on = 0;
}

static void modem_begin_carrier(modem *it, uint32_t carrier, int brief, const uint8_t *octets, uint64_t bits)
{
    it->tone = 0;
    it->says = carrier;
    it->state = carrier == G3_V21 ? HAS_BITS : brief ? TRAINS_BRIEF : TRAINS_LONG;
    it->trains = brief ? BRIEF_TRAINING : LONG_TRAINING;
    it->octets = octets;
    it->bits = bits;
    it->at = 0;
    it->due = 0;
}

void bits_extend(modem *it, uint64_t bits)
{
    it->bits = bits;
}

static uint32_t rate_of(uint32_t carrier)
{
    static const uint32_t RATES[] = {
        [0] = 0, [G3_V21] = 300, [G3_V27TER_2400] = 2400, [G3_V27TER_4800] = 4800, [G3_V29_7200] = 7200, [G3_V29_9600] = 9600,
        [G3_V17_7200] = 7200, [G3_V17_9600] = 9600, [G3_V17_12000] = 12000, [G3_V17_14400] = 14400};
    return RATES[carrier];
}

/* The check of a sample: its nibbles together, with one that isn't 0. */
static uint32_t check_of(uint32_t sample)
{
    return (sample >> 12 ^ sample >> 8 ^ sample ^ 5) & 15;
}

static int16_t sample_of(uint32_t carrier, int state, uint32_t count, uint32_t bits)
{
    uint32_t sample = 0x4000 | (uint32_t)state << 12 | carrier << 8 | count << 2 | bits;
    return (int16_t)(sample | check_of(sample) << 4);
}

/* The next sample of the carrier; 0 after its end. */
static int16_t next_sample(modem *it)
{
    uint32_t count = 0, bits = 0;
    if (it->state != HAS_BITS && it->trains > 0) {
        it->trains--;
        return sample_of(it->says, it->state, 0, 0);
    }
    it->state = HAS_BITS;
    if (it->at == it->bits) return 0;
    it->due += rate_of(it->says);
    for (; it->due >= RATE && it->at < it->bits; it->due -= RATE, it->at++) {
        bits |= (uint32_t)(it->octets[it->at / 8] >> (it->at % 8) & 1) << count++;
    }
    return sample_of(it->says, HAS_BITS, count, bits);
}

/* A slice of a tone: CNG lasts 0.5 s in 3.5 s. */
static int16_t tone_sample(modem *it)
{
    int at = it->goes_on++ % (RATE / 2 * 7);
    return it->tone == TONE_CNG + 1 && at >= RATE / 2 ? 0 : TONE;
}

static int modem_say(modem *it, int16_t *out)
{
    int goes_on = 1;
    for (int i = 0; i < SLICE; i++) {
        out[i] = it->tone ? tone_sample(it) : next_sample(it);
        goes_on = it->tone || out[i] != 0;
    }
    return goes_on;
}

static void modem_cut(modem *it)
{
    it->bits = it->at;
}

static void drop_bits(modem *it, int receiver)
{
    it->partial[receiver] = it->filled[receiver] = 0;
}

static void modem_listen(modem *it, uint32_t carrier, int brief)
{
    it->listens = carrier;
    it->brief = (uint32_t)brief;
    it->training = it->trained = 0;
    drop_bits(it, BY_PAGE);
}

static void take_bit(modem *it, int receiver, uint32_t bit)
{
    modem_heard *heard = it->heard;
    it->partial[receiver] |= (uint8_t)(bit << it->filled[receiver]);
    if (++it->filled[receiver] < 8) return;
    if (heard->count[receiver] < MOST_HEARD) heard->octets[receiver][heard->count[receiver]++] = it->partial[receiver];
    drop_bits(it, receiver);
}

/* The page receiver hears a sample of the carrier that it listens for. */
static void train(modem *it, uint32_t state)
{
    if (it->trained) return;
    if (state == (it->brief ? TRAINS_BRIEF : TRAINS_LONG)) it->training++;
    if (state != HAS_BITS) return;
    it->trained = it->training >= (it->brief ? BRIEF_TRAINING : LONG_TRAINING) * 9 / 10 ? 1 : -1;
    it->heard->trains = it->trained > 0;
    it->heard->fails = it->trained < 0;
}

static void take_sample(modem *it, uint32_t sample)
{
    uint32_t state = sample >> 12 & 3, carrier = sample >> 8 & 15, count = sample >> 2 & 3;
    int receiver = carrier == G3_V21 ? BY_V21 : BY_PAGE;
    if (sample < 0x4000) return; /* silence or a tone */
    if ((sample >> 4 & 15) != check_of(sample) || count > 2) {
        if (it->trained > 0) take_bit(it, BY_PAGE, sample & 1); /* noise */
        else take_bit(it, BY_V21, sample & 1);
        return;
    }
    if (receiver == BY_PAGE && carrier == it->listens) train(it, state);
    if (receiver == BY_PAGE && (carrier != it->listens || it->trained <= 0)) return;
    for (uint32_t i = 0; i < count; i++) take_bit(it, receiver, sample >> i & 1);
}

static void modem_hear(modem *it, const int16_t *in, modem_heard *heard)
{
    int sounds = 0;
    memset(heard, 0, sizeof *heard);
    it->heard = heard;
    for (int i = 0; i < SLICE; i++) {
        sounds |= in[i] != 0;
        take_sample(it, (uint16_t)in[i] & 0x7fff);
    }
    it->zeros = sounds ? 0 : it->zeros + 1;
    heard->begins = sounds && !it->is_open;
    heard->ends = it->is_open && it->zeros == FALLS;
    it->is_open = (it->is_open || sounds) && !heard->ends;
    for (int receiver = 0; heard->ends && receiver < RECEIVERS; receiver++) {
        while (it->filled[receiver] > 0) take_bit(it, receiver, 1);
    }
}

static int modem_is_noisy(const modem *it)
{
    (void)it;
    return 0;
}

static void modem_hush(modem *it)
{
    it->zeros = FALLS - 1; /* a slice of silence ends it */
}

static void modem_forget(modem *it)
{
    it->is_open = it->zeros = 0;
    drop_bits(it, BY_V21);
    drop_bits(it, BY_PAGE);
}

const modem_kind modem_of_sound = {
    modem_free, modem_begin_tone, modem_begin_carrier, modem_say, modem_cut, modem_listen, modem_hear, modem_is_noisy, modem_hush,
    modem_forget, 0, 0};
