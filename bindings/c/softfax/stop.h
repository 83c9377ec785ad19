/* When a call is to be stopped: by SIGINT, SIGTERM, or after --most-seconds. */
#ifndef STOP_H
#define STOP_H
#include <stdint.h>

/* In order: by DCN, after the burst that goes out. Soon: by DCN, and the burst is cut. At once: the line is left as it is. */
enum { STOP_NOT, STOP_IN_ORDER, STOP_SOON, STOP_AT_ONCE };

/* Heeds SIGINT, SIGTERM and SIGHUP from now on, the last unless it is ignored already, and SIGUSR1. They end waits: no call of the system is
 * begun anew. A pipe that nobody reads, or a file that is too long, is an error then, and no signal. `most_seconds`: 0 for no limit;
 * `limits_wait`: it runs from now on, and not from a call's begin. */
void stop_watch(int most_seconds, int limits_wait);
/* A call begins, and ends: the limit runs meanwhile. */
void stop_call_begins(void);
void stop_call_ends(void);
/* How the call is to be stopped: in order after the first signal, or once the machine's clock or the line's, `line_millis`, is past the
 * limit; soon after the second signal, or a minute more of the machine's clock; at once after the third, or 10 s more. */
int stop_level(int64_t line_millis);
/* Whether no other call is to be taken: one of these signals has come, or SIGUSR1, which lets a call that is on go on. */
int stop_takes_no_more(void);
/* Why a call was stopped, in words. */
const char *stop_why(void);
/* Milliseconds of a clock that is never set back. */
int64_t stop_clock(void);
#endif
