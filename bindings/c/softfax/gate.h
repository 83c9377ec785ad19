/* Whether there is a signal on a line, by its level alone. A modem's own detectors of carriers have fixed thresholds, and on a line whose
 * hiss is louder no carrier ever ends for them. This one learns how loud the hiss is. */
#ifndef GATE_H
#define GATE_H
#include <stdint.h>

typedef struct gate {
    int is_open;   /* whether there is a signal */
    int is_hiss;   /* what is on the line now is its hiss */
    int falls;     /* slices without a signal since it is open */
    int zeros;     /* slices of nothing, one after the other */
    int16_t last;  /* the sample before */
    double hiss;   /* the level of the silent line, in dBm0 */
} gate;

void gate_reset(gate *it);
/* 1: a signal has begun with this slice; -1: it ended 30 ms before; 0: neither. */
int gate_edge(gate *it, const int16_t *slice);
#endif
