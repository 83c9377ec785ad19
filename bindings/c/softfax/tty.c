#include "tty.h"
#include "class1.h"
#include "inits.h"
#include "lock.h"
#include "stop.h"
#include "told.h"
#include <errno.h>
#include <fcntl.h>
#include <stdio.h>
#include <stdlib.h>
#include <string.h>
#include <strings.h>
#include <sys/ioctl.h>
#include <termios.h>
#include <unistd.h>

/* A pause of the machine, as a sleep, isn't time: more than this isn't made up for. The other side has gone on meanwhile, but a wait that
 * is over too early ends the call for certain. */
enum { MOST_LATE = 200 };

typedef struct tty {
    const char *name;
    int fd;
    lock lock;
    struct termios found;   /* how the tty was */
    uint64_t written;       /* octets that it has taken */
} tty;

/* The tty */

static void close_tty(tty *it)
{
    if (it->fd >= 0) {
        tcflush(it->fd, TCIOFLUSH); /* what a dead modem hasn't taken would be waited for */
        tcsetattr(it->fd, TCSANOW, &it->found);
        ioctl(it->fd, TIOCNXCL);
        close(it->fd);
    }
    lock_leave(&it->lock);
}

/* Opens the tty for this process alone, in raw mode; returns whether it could, else errno says why. */
static int open_tty(tty *it, int has_rts)
{
    it->fd = open(it->name, O_RDWR | O_NOCTTY | O_NONBLOCK);
    if (it->fd < 0) return 0;
    if (tcgetattr(it->fd, &it->found) != 0 || ioctl(it->fd, TIOCEXCL) != 0) {
        int why = errno;
        close(it->fd);
        it->fd = -1;
        errno = why;
        return 0;
    }
    struct termios raw = it->found;
    raw.c_iflag = IGNBRK;
    raw.c_oflag = 0;
    raw.c_lflag = 0;
    raw.c_cflag = CS8 | CREAD | CLOCAL | HUPCL | (has_rts ? CRTSCTS : 0);
    raw.c_cc[VMIN] = 1;
    raw.c_cc[VTIME] = 0;
    cfsetispeed(&raw, B115200);
    cfsetospeed(&raw, B115200);
    if (tcsetattr(it->fd, TCSANOW, &raw) != 0) return 0;
    tcflush(it->fd, TCIOFLUSH);
    return 1;
}

static int port_read(void *user, uint8_t *octets, int room)
{
    ssize_t got = read(((tty *)user)->fd, octets, (size_t)room);
    if (got > 0) return (int)got;
    return got < 0 && (errno == EAGAIN || errno == EINTR) ? 0 : -1;
}

static int port_write(void *user, const uint8_t *octets, int count)
{
    tty *it = user;
    ssize_t put = write(it->fd, octets, (size_t)count);
    if (put >= 0) return it->written += (uint64_t)put, (int)put;
    return errno == EAGAIN || errno == EINTR ? 0 : -1;
}

static int port_waiting(void *user)
{
    int waiting = 0;
    return ioctl(((tty *)user)->fd, TIOCOUTQ, &waiting) == 0 ? waiting : 0;
}

/* XON and XOFF are octets like others in what is received, so they are minded only while a page goes out. */
static void port_mind_xoff(void *user, int is)
{
    struct termios now;
    int fd = ((tty *)user)->fd;
    if (tcgetattr(fd, &now) != 0) return;
    if (is) now.c_iflag |= IXON;
    else now.c_iflag &= (tcflag_t)~IXON;
    tcsetattr(fd, TCSANOW, &now);
}

/* The call */

struct tty_call {
    tty on;
    call *call;
    tty_clock clock;
    modem *modem;
    const char *inits[MOST_INITS];
    char found[MOST_INITS][INITS_ROOM]; /* those that were given by name */
    int64_t now, next, skipped;
    int stage, stopped, is_finished, has_failed; /* has_failed: the terminal couldn't be made */
};

/* The time of the call: the clock's, less its pauses. */
static void read_clock(tty_call *it)
{
    int64_t now = it->clock.now(it->clock.user) - it->skipped;
    if (now - it->now > MOST_LATE) {
        it->skipped += now - it->now - MOST_LATE;
        now = it->now + MOST_LATE;
    }
    it->now = now;
}

/* Stops a call that hasn't begun, or that isn't to end in order. */
static void heed(tty_call *it)
{
    int level = call_heed(it->call);
    if (it->call->terminal == NULL && level == STOP_NOT && stop_takes_no_more()) level = STOP_IN_ORDER;
    if (level == it->stopped) return;
    it->stopped = level;
    if (it->call->terminal == NULL || level == STOP_AT_ONCE) class1_hang_up(it->modem);
}

/* A slice of the call, if there is one. A modem that lists nothing is taken to have all. */
static void slice(tty_call *it)
{
    int16_t unused[SLICE] = {0};
    uint32_t speeds = class1_speeds(it->modem);
    if (it->stage != CLASS1_IS_ON || it->has_failed) return;
    if (it->call->terminal == NULL) {
        call_rings(it->call, class1_caller_number(it->modem), class1_caller_name(it->modem));
        it->has_failed = !call_begin(it->call, speeds != 0 ? speeds : G3_V17, &modem_of_class1, it->modem);
        if (it->has_failed) class1_hang_up(it->modem);
        if (it->has_failed) return;
    }
    if (class1_is_lost(it->modem) && !call_is_over(it->call)) terminal_lose(it->call->terminal);
    if (call_is_over(it->call)) class1_hang_up(it->modem);
    else call_step(it->call, unused, unused);
}

int tty_go_on(tty_call *it)
{
    int64_t wait = it->next - it->now;
    it->clock.wait(it->clock.user, it->on.fd, wait > 0 ? (int)wait : 0);
    read_clock(it);
    heed(it);
    it->stage = class1_step(it->modem, it->now);
    for (; it->next <= it->now; it->next += SLICE_MILLIS) slice(it);
    return it->stage != CLASS1_IS_OVER;
}

uint64_t tty_written(const tty_call *it)
{
    return it->on.written;
}

/* Finds the commands of the set-up that are given by name. */
static int find_inits(tty_call *it)
{
    const options *given = it->call->given;
    for (int i = 0; i < given->init_count; i++) {
        int is_command = strncasecmp(given->inits[i], "AT", 2) == 0;
        if (!is_command && !inits_find(given->inits[i], given->xon, it->found[i])) return 0;
        it->inits[i] = is_command ? given->inits[i] : it->found[i];
    }
    return 1;
}

/* Why there is no call is told at its end. */
static int fails(tty_call *it, const char *why)
{
    call_fails(it->call, it->on.name, why);
    return 0;
}

/* Locks the tty and opens it. */
static int open_locked(tty_call *it)
{
    char why[60];
    long process = lock_take(&it->on.lock, it->on.name);
    snprintf(why, sizeof why, "process %ld has it", process);
    if (process != 0) return fails(it, why);
    return open_tty(&it->on, !it->call->given->xon) || fails(it, strerror(errno));
}

/* Opens the tty, and makes the modem on it. */
static int begin(tty_call *it, FILE *trace)
{
    const options *given = it->call->given;
    class1_setup setup = {it->inits, given->init_count, given->number, given->rings, trace};
    port port = {&it->on, port_read, port_write, port_waiting, port_mind_xoff};
    if (!find_inits(it) || !open_locked(it)) return 0;
    it->modem = class1_new(&port, &setup);
    it->now = it->next = it->clock.now(it->clock.user);
    return it->modem != NULL || fails(it, "no memory");
}

tty_call *tty_begin(call *call, const tty_clock *clock, FILE *trace)
{
    static const tty_call fresh;
    tty_call *it = malloc(sizeof *it);
    if (it == NULL) return call_fails(call, call->given->tty, "no memory"), NULL;
    *it = fresh;
    it->call = call;
    it->clock = *clock;
    it->on.name = call->given->tty;
    it->on.fd = -1;
    if (begin(it, trace)) return it;
    tty_end(it);
    return NULL;
}

void tty_finish(tty_call *it)
{
    call *call = it->call;
    if (it->is_finished) return;
    it->is_finished = 1;
    if (call->terminal != NULL && !call_is_over(call)) terminal_lose(call->terminal);
    if (it->modem != NULL && class1_why(it->modem) != NULL) call_fails(call, it->on.name, class1_why(it->modem));
}

int tty_next(tty_call *it, call *next)
{
    if (it->has_failed || !class1_again(it->modem)) return 0;
    it->call = next;
    it->is_finished = it->stopped = 0;
    it->stage = CLASS1_WAITS;
    return 1;
}

int tty_end(tty_call *it)
{
    int is_well = !it->has_failed;
    tty_finish(it);
    modem_of_class1.free(it->modem);
    close_tty(&it->on);
    free(it);
    return is_well;
}
