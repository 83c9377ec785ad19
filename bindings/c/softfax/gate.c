#include "gate.h"
#include "modem.h"
#include <math.h>

/* in dB and dBm0 */
static const double ABOVE_HISS = 8, LEAST_SIGNAL = -43, NOTHING = -80, LEAST_HISS = -70, HISS_OF_SIGNALS = -60;
/* how fast the hiss may grow, in dB a second, while the line is silent and while there is a signal */
static const double GROWS_IN_SILENCE = 1, GROWS_IN_SIGNAL = 0.1;
enum { FALLS = 6, ZEROS = 8 }; /* slices */

void gate_reset(gate *it)
{
    static const gate fresh; /* all zeros: the first slice sets the hiss, since it is below 0 dBm0 */
    *it = fresh;
}

/* The level of a slice, in dBm0. It is that of the differences between samples, so that a hum of 50 Hz counts 28 dB less; 1,800 Hz, the
 * middle of the carriers, counts the same. */
static double level_of(gate *it, const int16_t *slice)
{
    double sum = 1e-9;
    for (int i = 0; i < SLICE; i++) {
        double rise = slice[i] - it->last;
        sum += rise * rise;
        it->last = slice[i];
    }
    return 10 * log10(sum / SLICE) - 86.45; /* a sine of full scale is 3.14 dBm0 */
}

/* Learns the hiss: the least level that was seen, which grows slowly. */
static void learn(gate *it, double level)
{
    it->zeros = level < NOTHING ? it->zeros + 1 : 0;
    if (it->zeros >= ZEROS) it->hiss = HISS_OF_SIGNALS; /* the line passes nothing in silences: its hiss comes with the signals */
    else if (it->zeros > 0) return;                     /* a few zeros say nothing */
    else if (level < it->hiss || it->is_hiss) it->hiss = level < LEAST_HISS ? LEAST_HISS : level;
    else it->hiss += (it->is_open ? GROWS_IN_SIGNAL : GROWS_IN_SILENCE) * SLICE_MILLIS / 1000;
    it->is_hiss = 0;
}

int gate_edge(gate *it, const int16_t *slice)
{
    double level = level_of(it, slice);
    learn(it, level);
    if (level > it->hiss + ABOVE_HISS && level > LEAST_SIGNAL) {
        int begins = !it->is_open;
        it->falls = 0;
        it->is_open = 1;
        return begins;
    }
    if (!it->is_open || ++it->falls < FALLS) return 0;
    it->is_open = 0;
    return -1;
}
