#include "told.h"
#include <errno.h>
#include <poll.h>
#include <stdarg.h>
#include <stdio.h>
#include <unistd.h>

enum { ROOM = 1 << 15, PIECE = 4096 /* a pipe that has room at all has so much */, PATIENCE = 100 /* milliseconds */ };

static char line[ROOM];
static size_t filled;
static int is_full, is_open; /* is_full: nobody has read for a while; is_open: a line was cut short */

void told_add(const char *format, ...)
{
    va_list values;
    va_start(values, format);
    size_t room = ROOM - 1 - filled; /* LF comes last */
    int length = vsnprintf(line + filled, room, format, values);
    va_end(values);
    if (length > 0) filled += (size_t)length < room ? (size_t)length : room - 1;
}

/* Whether something can be written now. */
static int is_ready(void)
{
    struct pollfd out = {STDERR_FILENO, POLLOUT, 0};
    int ready = -1;
    for (int tries = 0; tries < 3 && ready < 0; tries++) ready = poll(&out, 1, is_full ? 0 : PATIENCE); /* a signal ends it */
    is_full = ready <= 0;
    return !is_full;
}

/* Writes octets; returns how many. */
static size_t put(const char *octets, size_t count)
{
    size_t done = 0;
    while (done < count && is_ready()) {
        ssize_t written = write(STDERR_FILENO, octets + done, count - done < PIECE ? count - done : PIECE);
        if (written > 0) done += (size_t)written;
        else if (written == 0 || (errno != EINTR && errno != EAGAIN)) return done;
    }
    return done;
}

void told_end(void)
{
    size_t count = filled;
    filled = 0;
    line[count++] = '\n';
    if (is_open && put("\n", 1) == 0) return;
    size_t done = put(line, count);
    is_open = done > 0 && done < count;
}

void told(const char *text)
{
    told_add("%s", text);
    told_end();
}

void told_fault(const char *name, const char *why)
{
    told_add("softfax: %s: %s", name, why);
    told_end();
}
