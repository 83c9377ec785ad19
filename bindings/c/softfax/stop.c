#include "stop.h"
#include <signal.h>
#include <stddef.h>
#include <stdio.h>
#include <time.h>

enum { IN_ORDER_MILLIS = 60000, SOON_MILLIS = 10000 };

static volatile sig_atomic_t signals, takes_no_more;
static int is_timed; /* the longest time runs */
static int64_t began, most, stopped, hurried; /* milliseconds; stopped and hurried: 0 until the call is */

static void on_signal(int number)
{
    if (number == SIGUSR1) takes_no_more = 1;
    else if (signals < STOP_AT_ONCE) signals = signals + 1;
}

int64_t stop_clock(void)
{
    struct timespec is;
    clock_gettime(CLOCK_MONOTONIC, &is);
    return (int64_t)is.tv_sec * 1000 + is.tv_nsec / 1000000;
}

void stop_watch(int most_seconds, int limits_wait)
{
    static const int HEEDED[] = {SIGINT, SIGTERM, SIGUSR1, SIGHUP};
    struct sigaction action = {.sa_handler = on_signal}, ignored = {.sa_handler = SIG_IGN}, was;
    began = stop_clock();
    most = (int64_t)most_seconds * 1000;
    is_timed = limits_wait;
    sigfillset(&action.sa_mask); /* one at a time, or one of two isn't counted */
    for (size_t i = 0; i < sizeof HEEDED / sizeof HEEDED[0]; i++) {
        int is_left = HEEDED[i] == SIGHUP && sigaction(SIGHUP, NULL, &was) == 0 && was.sa_handler == SIG_IGN; /* as nohup has it */
        if (!is_left) sigaction(HEEDED[i], &action, NULL);
    }
    sigaction(SIGPIPE, &ignored, NULL);
    sigaction(SIGXFSZ, &ignored, NULL);
}

void stop_call_begins(void)
{
    if (!is_timed) began = stop_clock();
    is_timed = 1;
}

void stop_call_ends(void)
{
    if (signals == 0) is_timed = stopped = hurried = 0;
}

int stop_level(int64_t line_millis)
{
    int64_t now = stop_clock();
    int is_late = is_timed && most > 0 && (now - began >= most || line_millis >= most);
    int level = signals;
    if (level == STOP_NOT && is_late) level = STOP_IN_ORDER;
    if (level != STOP_NOT && stopped == 0) stopped = now;
    if (level == STOP_IN_ORDER && now - stopped >= IN_ORDER_MILLIS) level = STOP_SOON;
    if (level == STOP_SOON && hurried == 0) hurried = now;
    return level == STOP_SOON && now - hurried >= SOON_MILLIS ? STOP_AT_ONCE : level;
}

int stop_takes_no_more(void)
{
    return signals > 0 || takes_no_more;
}

const char *stop_why(void)
{
    static char text[60];
    if (signals > 0) return "a signal has stopped it";
    snprintf(text, sizeof text, "it has taken longer than --most-seconds %lld", (long long)(most / 1000));
    return text;
}
