/* Frames that wait, in order, by their contents. */
#ifndef WAITING_H
#define WAITING_H
#include "modem.h"
#include <string.h>

enum { MOST_CONTENTS = 8, MOST_FRAME = MOST_CONTENT + 2 /* with its check sequence */ };
typedef struct frames {
    uint8_t octets[MOST_CONTENTS][MOST_FRAME];
    int length[MOST_CONTENTS], first, count;
} frames;

static inline void put_frame(frames *to, const uint8_t *octets, int length)
{
    if (to->count == MOST_CONTENTS || length > MOST_FRAME) return; /* lost, as on a line; eight frames never wait */
    int at = (to->first + to->count++) % MOST_CONTENTS;
    memcpy(to->octets[at], octets, (size_t)length);
    to->length[at] = length;
}

/* Takes the first one; returns how long it is, 0 if there is none. */
static inline int take_frame(frames *from, uint8_t *octets)
{
    if (from->count == 0) return 0;
    int at = from->first, length = from->length[at];
    memcpy(octets, from->octets[at], (size_t)length);
    from->first = (at + 1) % MOST_CONTENTS;
    from->count--;
    return length;
}
#endif
