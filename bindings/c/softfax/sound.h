/* Streams of sound for softfax: signed samples of 16 bits in this machine's order, 8,000 a second, with no header. Every fault is told on
 * standard error. */
#ifndef SOUND_H
#define SOUND_H
#include <stdint.h>
#include <stdio.h>

/* A stream, and how far a piece of it is. */
typedef struct sound {
    const char *name;
    int stream;   /* a descriptor; -1 before it is open */
    size_t done;  /* octets of the piece */
} sound;

enum { SOUND_IS_THERE, SOUND_STALLS, SOUND_ENDS, SOUND_FAILS };
enum { SOUND_PATIENCE = 100 }; /* milliseconds that a function here waits at most */
/* Opens a stream to read or to write; "-" is standard input or output. A pipe or a device is written to as it is; a file must be new.
 * SOUND_STALLS: nobody reads a pipe yet; try again. */
int sound_open_in(sound *it, const char *name);
int sound_open_out(sound *it, const char *name);

/* Closes a stream that is open; returns whether nothing failed. */
int sound_close(sound *it);

/* Reads or writes a piece of so many samples. SOUND_STALLS: it isn't through; go on with the same samples. If a stream ends earlier, the
 * rest is zeros. If nobody reads a pipe any more, the stream has ended. */
int sound_read(sound *it, int16_t *samples, int count);
int sound_write(sound *it, const int16_t *samples, int count);

/* A new WAV file of two channels; NULL where it can't be made. */
FILE *wav_new(const char *name);
void wav_write(FILE *file, const int16_t *left, const int16_t *right, int count);
/* Completes it; whether all was written. */
int wav_close(FILE *file, const char *name);
#endif
