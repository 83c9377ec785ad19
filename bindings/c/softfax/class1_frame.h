/* A frame by V.21 as a Class 1 modem hands it over behind CONNECT: its octets, each DLE doubled, then DLE ETX. Modems also say CONNECT twice,
 * or a result with no frame before it. */
#ifndef CLASS1_FRAME_H
#define CLASS1_FRAME_H
#include "waiting.h"

enum { CLASS1_LINE = 16 }; /* room for a result */

typedef struct class1_frame {
    uint8_t octets[MOST_FRAME]; /* from the first FF on, with the check sequence */
    int length, escaped;        /* escaped: DLE has come */
    int is_ended;               /* by DLE ETX */
    char line[CLASS1_LINE];     /* what came since the last LF, in case that it is a result */
    int filled;
} class1_frame;

/* For a frame behind CONNECT. */
void class1_frame_begin(class1_frame *it);
/* Takes an octet; returns the result that a line among the octets is, or NO_RESULT. CONNECT has begun the frame anew; after any other result
 * there is no frame. */
int class1_frame_take(class1_frame *it, uint8_t octet);
/* Whether all of a frame is there, if its result is OK: FF, two octets and a check sequence at least, and DLE ETX. */
int class1_frame_is_whole(const class1_frame *it);
/* Whether it says that no frame follows in its signal (T.30, 5.3.5). */
int class1_frame_is_last(const class1_frame *it);
#endif
