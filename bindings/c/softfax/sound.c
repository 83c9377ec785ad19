#include "sound.h"
#include "told.h"
#include <errno.h>
#include <fcntl.h>
#include <poll.h>
#include <string.h>
#include <sys/stat.h>
#include <unistd.h>

/* Tells why the last call of the system failed. */
static int fails(const char *name)
{
    told_fault(name, strerror(errno));
    return SOUND_FAILS;
}

/* A pipe is opened though nobody has its other end open: what is read waits for that, and what is written is tried again. */
int sound_open_in(sound *it, const char *name)
{
    *it = (sound){name, STDIN_FILENO, 0};
    if (strcmp(name, "-") != 0) it->stream = open(name, O_RDONLY | O_NONBLOCK);
    return it->stream < 0 ? fails(name) : SOUND_IS_THERE;
}

int sound_open_out(sound *it, const char *name)
{
    struct stat found;
    *it = (sound){name, STDOUT_FILENO, 0};
    if (strcmp(name, "-") == 0) return SOUND_IS_THERE;
    it->stream = -1;
    if (stat(name, &found) == 0 && S_ISREG(found.st_mode)) return errno = EEXIST, fails(name);
    it->stream = open(name, O_WRONLY | O_CREAT | O_NONBLOCK, S_IRUSR | S_IWUSR);
    if (it->stream >= 0) return SOUND_IS_THERE;
    if (errno != ENXIO && errno != EINTR) return fails(name);
    poll(NULL, 0, SOUND_PATIENCE);
    return SOUND_STALLS;
}

int sound_close(sound *it)
{
    int stream = it->stream;
    it->stream = -1;
    return stream < 0 || close(stream) == 0 || errno == EINTR || fails(it->name) == SOUND_IS_THERE;
}

/* Waits until something can be read or written; returns whether it can. */
static int is_ready(const sound *it, short what)
{
    struct pollfd ready = {it->stream, what, 0};
    return poll(&ready, 1, SOUND_PATIENCE) > 0;
}

/* Whether a call of the system has failed for now only. */
static int is_for_now(void)
{
    return errno == EINTR || errno == EAGAIN;
}

int sound_read(sound *it, int16_t *samples, int count)
{
    size_t length = (size_t)count * sizeof *samples;
    ssize_t got = 1;
    if (it->done == 0) memset(samples, 0, length);
    while (it->done < length && got > 0) {
        if (!is_ready(it, POLLIN)) return SOUND_STALLS;
        got = read(it->stream, (char *)samples + it->done, length - it->done);
        if (got > 0) it->done += (size_t)got;
        else if (got < 0) return is_for_now() ? SOUND_STALLS : fails(it->name);
    }
    size_t done = it->done;
    it->done = 0;
    if (done % sizeof *samples != 0) {
        told_fault(it->name, "it ends in the middle of a sample");
        return SOUND_FAILS;
    }
    return done == length ? SOUND_IS_THERE : SOUND_ENDS;
}

int sound_write(sound *it, const int16_t *samples, int count)
{
    size_t length = (size_t)count * sizeof *samples;
    while (it->done < length) {
        if (!is_ready(it, POLLOUT)) return SOUND_STALLS;
        ssize_t put = write(it->stream, (const char *)samples + it->done, length - it->done);
        if (put > 0) it->done += (size_t)put;
        else if (put < 0 && errno == EPIPE) return SOUND_ENDS;
        else return put == 0 || is_for_now() ? SOUND_STALLS : fails(it->name);
    }
    it->done = 0;
    return SOUND_IS_THERE;
}

enum { WAV_HEADER = 44, CHANNELS = 2, OCTETS = 2, RATE = 8000 };

/* A number in the order of a WAV file. */
static void put_number(FILE *file, uint32_t number, int octets)
{
    for (int i = 0; i < octets; i++) fputc((int)(number >> 8 * i & 255), file);
}

static void put_header(FILE *file, uint32_t length)
{
    fputs("RIFF", file);
    put_number(file, WAV_HEADER - 8 + length, 4);
    fputs("WAVEfmt ", file);
    put_number(file, 16, 4); /* octets of what follows */
    put_number(file, 1, 2);  /* samples as they are */
    put_number(file, CHANNELS, 2);
    put_number(file, RATE, 4);
    put_number(file, RATE * CHANNELS * OCTETS, 4);
    put_number(file, CHANNELS * OCTETS, 2);
    put_number(file, 8 * OCTETS, 2);
    fputs("data", file);
    put_number(file, length, 4);
}

FILE *wav_new(const char *name)
{
    FILE *file = fopen(name, "wbx");
    if (file == NULL) fails(name);
    else put_header(file, 0);
    return file;
}

void wav_write(FILE *file, const int16_t *left, const int16_t *right, int count)
{
    for (int i = 0; i < count; i++) {
        put_number(file, (uint16_t)left[i], OCTETS);
        put_number(file, (uint16_t)right[i], OCTETS);
    }
}

int wav_close(FILE *file, const char *name)
{
    long end = ftell(file);
    rewind(file);
    put_header(file, end < WAV_HEADER ? 0 : (uint32_t)end - WAV_HEADER);
    int is_whole = !ferror(file) && end >= WAV_HEADER;
    if (fclose(file) != 0) is_whole = 0;
    if (!is_whole) told_fault(name, "it can't be written whole");
    return is_whole;
}
