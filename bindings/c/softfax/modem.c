/* The modem over libspandsp's V.21, V.27 ter, V.29, V.17 and tones. Nothing else of libspandsp is used here, and nothing else here knows
 * it.
 *
 * What was met in libspandsp 0.0.6, for whoever joins its modems to anything:
 * - The short training of V.17 fails now and then, by the carrier's phase, on good lines too: of 160 bursts 18 at a noise of -50 dBm0,
 *   20 at -44 and 33 at -36, 55 ms after the carrier began. With the receiver restarted there none of 1,280 failed at -36. One that
 *   isn't restarted is parked until the carrier ends, and all frames are lost.
 * - The page receivers find carriers by fixed thresholds of about -45 dBm0. If the hiss is louder, no carrier ends for them, and after a
 *   failed training they wait for that end for good.
 * - fsk_rx_restart sets the threshold of V.21 back to -30 dBm0. Its detector knows the level alone, so any carrier is one.
 * - States come through the function for bits as negative numbers, from within the receiver's call, which may be restarting. Note them,
 *   and act after the call.
 * - Short training needs the receiver that was trained before, which keeps its equalizer.
 * - At a carrier's end the functions for samples give fewer than asked for, and nothing else says so.
 * - Its terminal writes into the samples that it hears, and closes a received file only at t30_terminate.
 * Before the modem judged checks and repeated its short training, 3 of 36 calls of its terminal to ours waited for CTR at -36 dBm0. */
#include "modem.h"
#include "g3fax.h"
#include "gate.h"
#include <spandsp.h>
#include <stdlib.h>
#include <string.h>

enum { V21, V27TER, V29, V17, NO_KIND };
enum { MOST_TRIES = 2, MOST_SYMBOLS = 3000 /* 1.25 s */ };
static const struct { int kind, rate; } CARRIERS[] = {
    [0] = {NO_KIND, 0}, [G3_V21] = {V21, 300}, [G3_V27TER_2400] = {V27TER, 2400}, [G3_V27TER_4800] = {V27TER, 4800},
    [G3_V29_7200] = {V29, 7200}, [G3_V29_9600] = {V29, 9600}, [G3_V17_7200] = {V17, 7200}, [G3_V17_9600] = {V17, 9600},
    [G3_V17_12000] = {V17, 12000}, [G3_V17_14400] = {V17, 14400}};

struct modem {
    fsk_tx_state_t *v21_tx;
    fsk_rx_state_t *v21_rx;
    v27ter_tx_state_t *v27ter_tx;
    v27ter_rx_state_t *v27ter_rx;
    v29_tx_state_t *v29_tx;
    v29_rx_state_t *v29_rx;
    v17_tx_state_t *v17_tx;
    v17_rx_state_t *v17_rx;
    modem_connect_tones_tx_state_t *tone; /* the tone that goes out; NULL where it is a carrier */
    uint32_t says, listens;               /* carriers */
    int brief, tries;                     /* how the page receiver is trained, and how often that was begun anew in this signal */
    const uint8_t *octets;                /* what the carrier carries */
    uint64_t bits, at;
    gate gate;
    int16_t late[SLICE];                  /* the slice before: receivers hear 5 ms late, so that they hear a signal from its beginning */
    double off;                           /* how far symbols of V.17 lay from their points since the training, squares added up */
    int symbols;                          /* how many */
    modem_heard *heard;                   /* where the receivers write */
    uint8_t partial[RECEIVERS], filled[RECEIVERS];
};

/* The next bit of the carrier that goes out. */
static int next_bit(void *user)
{
    modem *it = user;
    if (it->at >= it->bits) return SIG_STATUS_END_OF_DATA;
    int bit = it->octets[it->at / 8] >> (it->at % 8) & 1;
    it->at++;
    return bit;
}

static void take_bit(modem *it, int receiver, int bit)
{
    modem_heard *heard = it->heard;
    it->partial[receiver] |= (uint8_t)(bit << it->filled[receiver]);
    if (++it->filled[receiver] < 8) return;
    if (heard->count[receiver] < MOST_HEARD) heard->octets[receiver][heard->count[receiver]++] = it->partial[receiver];
    it->partial[receiver] = it->filled[receiver] = 0;
}

static void drop_bits(modem *it, int receiver)
{
    it->partial[receiver] = it->filled[receiver] = 0;
}

/* A receiver's bits, and its states as negative numbers. These come from within its call, and it may be in the middle of starting anew: so
 * nothing is changed here. */
static void from_v21(void *user, int bit)
{
    if (bit >= 0) take_bit(user, BY_V21, bit);
}
static void from_page(void *user, int bit)
{
    modem *it = user;
    if (bit >= 0) take_bit(it, BY_PAGE, bit);
    else if (bit == SIG_STATUS_TRAINING_FAILED) it->heard->fails = 1;
    else if (bit == SIG_STATUS_TRAINING_SUCCEEDED) {
        it->heard->trains = 1;
        it->heard->count[BY_PAGE] = 0;
        it->off = it->symbols = 0;
        drop_bits(it, BY_PAGE);
    }
}

/* A symbol of V.17, and the point that it is taken for. */
static void from_symbols(void *user, const complexf_t *got, const complexf_t *point, int number)
{
    modem *it = user;
    (void)number;
    if (got == NULL || point == NULL || it->symbols == MOST_SYMBOLS) return;
    double across = got->re - point->re, along = got->im - point->im;
    it->off += across * across + along * along;
    it->symbols++;
}

static void modem_free(modem *it);
static void modem_forget(modem *it);

modem *modem_new(void)
{
    modem *it = calloc(1, sizeof *it);
    if (it == NULL) return NULL;
    it->v21_tx = fsk_tx_init(NULL, &preset_fsk_specs[FSK_V21CH2], next_bit, it);
    it->v21_rx = fsk_rx_init(NULL, &preset_fsk_specs[FSK_V21CH2], FSK_FRAME_MODE_SYNC, from_v21, it);
    it->v27ter_tx = v27ter_tx_init(NULL, 4800, FALSE, next_bit, it);
    it->v27ter_rx = v27ter_rx_init(NULL, 4800, from_page, it);
    it->v29_tx = v29_tx_init(NULL, 9600, FALSE, next_bit, it);
    it->v29_rx = v29_rx_init(NULL, 9600, from_page, it);
    it->v17_tx = v17_tx_init(NULL, 14400, FALSE, next_bit, it);
    it->v17_rx = v17_rx_init(NULL, 14400, from_page, it);
    if (!it->v21_tx || !it->v21_rx || !it->v27ter_tx || !it->v27ter_rx || !it->v29_tx || !it->v29_rx || !it->v17_tx || !it->v17_rx) {
        modem_free(it);
        return NULL;
    }
    v17_rx_set_qam_report_handler(it->v17_rx, from_symbols, it);
    gate_reset(&it->gate);
    modem_forget(it);
    return it;
}

static void modem_free(modem *it)
{
    if (it == NULL) return;
    if (it->v21_tx) fsk_tx_free(it->v21_tx);
    if (it->v21_rx) fsk_rx_free(it->v21_rx);
    if (it->v27ter_tx) v27ter_tx_free(it->v27ter_tx);
    if (it->v27ter_rx) v27ter_rx_free(it->v27ter_rx);
    if (it->v29_tx) v29_tx_free(it->v29_tx);
    if (it->v29_rx) v29_rx_free(it->v29_rx);
    if (it->v17_tx) v17_tx_free(it->v17_tx);
    if (it->v17_rx) v17_rx_free(it->v17_rx);
    if (it->tone) modem_connect_tones_tx_free(it->tone);
    free(it);
}

static void end_tone(modem *it)
{
    if (it->tone) modem_connect_tones_tx_free(it->tone);
    it->tone = NULL;
}

static void modem_begin_tone(modem *it, int tone)
{
    end_tone(it);
    it->tone = modem_connect_tones_tx_init(NULL, tone == TONE_CNG ? MODEM_CONNECT_TONES_FAX_CNG : MODEM_CONNECT_TONES_ANS);
}

static void modem_begin_carrier(modem *it, uint32_t carrier, int brief, const uint8_t *octets, uint64_t bits)
{
    int rate = CARRIERS[carrier].rate;
    end_tone(it);
    it->says = carrier;
    it->octets = octets;
    it->bits = bits;
    it->at = 0;
    switch (CARRIERS[carrier].kind) {
    case V21: fsk_tx_restart(it->v21_tx, &preset_fsk_specs[FSK_V21CH2]); break;
    case V27TER: v27ter_tx_restart(it->v27ter_tx, rate, FALSE); break;
    case V29: v29_tx_restart(it->v29_tx, rate, FALSE); break;
    case V17: v17_tx_restart(it->v17_tx, rate, FALSE, brief); break;
    }
}

/* Samples of the tone or the carrier: how many there are, fewer than a slice at its end. */
static int samples(modem *it, int16_t *out)
{
    if (it->tone) return modem_connect_tones_tx(it->tone, out, SLICE);
    switch (CARRIERS[it->says].kind) {
    case V21: return fsk_tx(it->v21_tx, out, SLICE);
    case V27TER: return v27ter_tx(it->v27ter_tx, out, SLICE);
    case V29: return v29_tx(it->v29_tx, out, SLICE);
    case V17: return v17_tx(it->v17_tx, out, SLICE);
    default: return 0;
    }
}

static int modem_say(modem *it, int16_t *out)
{
    int count = samples(it, out);
    for (int i = count; i < SLICE; i++) out[i] = 0;
    return count == SLICE;
}

static void modem_cut(modem *it)
{
    it->bits = it->at;
}

static void start_receiver(modem *it)
{
    int rate = CARRIERS[it->listens].rate;
    drop_bits(it, BY_PAGE);
    switch (CARRIERS[it->listens].kind) {
    case V27TER: v27ter_rx_restart(it->v27ter_rx, rate, FALSE); break;
    case V29: v29_rx_restart(it->v29_rx, rate, FALSE); break;
    case V17: v17_rx_restart(it->v17_rx, rate, it->brief); break; /* the same receiver: its equalizer is trained */
    }
}

static void modem_listen(modem *it, uint32_t carrier, int brief)
{
    it->listens = carrier;
    it->brief = brief;
    start_receiver(it);
}

/* The short training of V.17 fails in up to a fifth of all bursts on a line with some noise, by how the carrier's phase happens to lie. It
 * does so halfway through the training, and what is left of that is enough for another try. */
static void try_again(modem *it)
{
    if (!it->heard->fails || !it->brief || CARRIERS[it->listens].kind != V17 || it->tries == MOST_TRIES) return;
    it->tries++;
    it->heard->fails = 0;
    start_receiver(it);
}

static void receive(modem *it, const int16_t *in)
{
    fsk_rx(it->v21_rx, in, SLICE);
    switch (CARRIERS[it->listens].kind) {
    case V27TER: v27ter_rx(it->v27ter_rx, in, SLICE); break;
    case V29: v29_rx(it->v29_rx, in, SLICE); break;
    case V17: v17_rx(it->v17_rx, in, SLICE); break;
    }
}

/* The receivers hear the line where there is a signal, and else nothing, so that they see each carrier end. */
static void modem_hear(modem *it, const int16_t *in, modem_heard *heard)
{
    static const int16_t silence[SLICE];
    int edge = gate_edge(&it->gate, in);
    memset(heard, 0, sizeof *heard);
    heard->begins = edge > 0;
    heard->ends = edge < 0;
    it->heard = heard;
    if (heard->begins) it->tries = 0;
    receive(it, it->gate.is_open || edge < 0 ? it->late : silence);
    try_again(it);
    memcpy(it->late, in, sizeof it->late);
    for (int receiver = 0; heard->ends && receiver < RECEIVERS; receiver++) {
        while (it->filled[receiver] > 0) take_bit(it, receiver, 1);
    }
}

/* Frames begin to be lost where the symbols are off by a quarter of the distance between points, at each speed. */
static int modem_is_noisy(const modem *it)
{
    static const double BETWEEN_POINTS[] = {[G3_V17_7200] = 4, [G3_V17_9600] = 2.83, [G3_V17_12000] = 2, [G3_V17_14400] = 1.41};
    if (CARRIERS[it->listens].kind != V17 || it->symbols == 0) return 0;
    double most = BETWEEN_POINTS[it->listens] / 4;
    return it->off > most * most * it->symbols;
}

static void modem_hush(modem *it)
{
    it->gate.is_hiss = 1;
}

static void modem_forget(modem *it)
{
    it->gate.is_open = it->gate.falls = 0;
    memset(it->late, 0, sizeof it->late);
    fsk_rx_restart(it->v21_rx, &preset_fsk_specs[FSK_V21CH2], FSK_FRAME_MODE_SYNC);
    fsk_rx_signal_cutoff(it->v21_rx, -43); /* the restart has set it to -30 dBm0 */
    drop_bits(it, BY_V21);
    drop_bits(it, BY_PAGE);
}

const modem_kind modem_of_sound = {
    modem_free, modem_begin_tone, modem_begin_carrier, modem_say, modem_cut, modem_listen, modem_hear, modem_is_noisy, modem_hush,
    modem_forget, 0, 0};
