#include "service.h"
#include "stop.h"
#include "told.h"
#include <errno.h>
#include <fcntl.h>
#include <poll.h>
#include <stdio.h>
#include <string.h>
#include <sys/stat.h>
#include <unistd.h>

enum { BETWEEN_TRIES = 1000 }; /* milliseconds, of a tty that is waited for */

void service_begin(service *it, call *call, const tty_clock *clock, FILE *trace)
{
    static const service fresh;
    *it = fresh;
    it->given = call->given;
    it->call = call;
    it->clock = clock;
    it->trace = trace;
    it->tries = clock->now(clock->user);
    call->number = it->given->most_calls != 0;
}

static void close_tty(service *it)
{
    if (it->on != NULL) it->has_failed |= !tty_end(it->on);
    it->on = NULL;
}

void service_end(service *it)
{
    close_tty(it);
}

/* Tells why a tty that is waited for can't be used, if that is another reason than before; it is tried again in a while. */
static int tries_again(service *it)
{
    const char *why = it->call->why != NULL ? it->call->why : "the modem has ended its set-up";
    close_tty(it);
    if (strcmp(it->told, why) != 0) {
        snprintf(it->told, sizeof it->told, "%s", why);
        told_fault("waits for the tty", why);
    }
    it->call->why = NULL;
    it->tries = it->clock->now(it->clock->user) + BETWEEN_TRIES;
    return 1;
}

/* There has been no call: the tty can't be opened, or its modem fails, or it is to end. */
static int miss_call(service *it)
{
    if (!stop_takes_no_more() && it->call->stop == STOP_NOT && it->given->waits_for_tty) return tries_again(it);
    int is_in_order = it->given->most_calls != 0 && it->call->why == NULL;
    if (!is_in_order) it->has_failed |= !call_end(it->call);
    return 0;
}

/* Makes the call that is awaited next, on the modem that is on hook, or on the tty anew. */
static int await_next(service *it)
{
    static const call fresh;
    call_free(it->call);
    *it->call = fresh;
    it->call->given = it->given;
    it->call->number = it->calls + 1;
    if (!tty_next(it->on, it->call)) close_tty(it);
    return 1;
}

/* The tty has no more to do for this call; returns whether another one is awaited. */
static int end_call(service *it)
{
    tty_finish(it->on);
    if (it->call->terminal == NULL) return miss_call(it);
    it->calls++;
    it->told[0] = 0;
    int is_normal = call_end(it->call);
    if (it->given->most_calls == 0) it->has_failed |= !is_normal;
    int is_last = it->given->most_calls != FOREVER && it->calls >= (uint64_t)it->given->most_calls;
    return !is_last && !stop_takes_no_more() && await_next(it);
}

int service_go_on(service *it)
{
    if (it->on != NULL) return tty_go_on(it->on) || end_call(it);
    int64_t wait = it->tries - it->clock->now(it->clock->user);
    if (wait > 0) it->clock->wait(it->clock->user, -1, (int)wait);
    call_heed(it->call);
    if (it->call->stop != STOP_NOT || stop_takes_no_more()) return miss_call(it);
    if (it->clock->now(it->clock->user) < it->tries) return 1;
    it->on = tty_begin(it->call, it->clock, it->trace);
    return it->on != NULL || miss_call(it);
}

/* By the machine's clock */

static int64_t machine_now(void *user)
{
    (void)user;
    return stop_clock();
}

static void machine_wait(void *user, int fd, int millis)
{
    struct pollfd ready = {fd, POLLIN, 0};
    (void)user;
    poll(&ready, 1, millis); /* a signal ends it early */
}

/* Opens the file of the trace. A pipe that nobody reads is none, and one that stalls loses lines: the call doesn't wait for it. */
static FILE *open_trace(const char *name)
{
    int file = open(name, O_WRONLY | O_CREAT | O_TRUNC | O_NONBLOCK, S_IRUSR | S_IWUSR);
    FILE *trace = file < 0 ? NULL : fdopen(file, "w");
    if (trace == NULL) told_fault(name, strerror(errno));
    if (trace == NULL && file >= 0) close(file);
    return trace;
}

int service_run(call *call)
{
    static const tty_clock MACHINE = {NULL, machine_now, machine_wait};
    const char *name = call->given->trace;
    FILE *trace = NULL;
    service it;
    if (name != NULL && (trace = open_trace(name)) == NULL) return 0;
    service_begin(&it, call, &MACHINE, trace);
    while (service_go_on(&it)) { }
    service_end(&it);
    if (trace != NULL && fclose(trace) != 0) {
        told_fault(name, "it can't be written whole");
        it.has_failed = 1;
    }
    return !it.has_failed;
}
