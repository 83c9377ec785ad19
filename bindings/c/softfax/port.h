/* The octets between a program and its modem. None of these functions waits. */
#ifndef PORT_H
#define PORT_H
#include <stdint.h>

typedef struct port {
    void *user;
    /* Returns how many octets were read, at most `room`; 0: none is there yet; -1: the modem is gone. */
    int (*read)(void *user, uint8_t *octets, int room);
    /* Returns how many octets were taken; 0: none can be for now; -1: the modem is gone. */
    int (*write)(void *user, const uint8_t *octets, int count);
    /* Returns how many of the octets that were taken haven't left the machine. NULL: none is held. */
    int (*waiting)(void *user);
    /* While `is` is 1 an XOFF from the modem stops what is written, until XON; else both are octets like others. NULL: nothing does it. */
    void (*mind_xoff)(void *user, int is);
} port;

/* Octets that wait, in order. */
enum { RING_ROOM = 8192 };
typedef struct ring {
    uint8_t octets[RING_ROOM];
    int first, count;
} ring;

/* Appends octets; returns whether all fit, else none is kept. */
static inline int ring_put(ring *it, const uint8_t *octets, int count)
{
    if (count > RING_ROOM - it->count) return 0;
    for (int i = 0; i < count; i++) it->octets[(it->first + it->count + i) % RING_ROOM] = octets[i];
    it->count += count;
    return 1;
}

/* Takes the first octets; returns how many. */
static inline int ring_take(ring *it, uint8_t *octets, int room)
{
    int count = it->count < room ? it->count : room;
    for (int i = 0; i < count; i++) octets[i] = it->octets[(it->first + i) % RING_ROOM];
    it->first = (it->first + count) % RING_ROOM;
    it->count -= count;
    return count;
}
#endif
