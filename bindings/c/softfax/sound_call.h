/* A call over two streams of sound. */
#ifndef SOUND_CALL_H
#define SOUND_CALL_H
#include "call.h"

/* Runs it; returns whether no stream failed. Every fault is told. no_sound.c has one for a softfax without libspandsp, which has none. */
int sound_call_run(call *it);
#endif
