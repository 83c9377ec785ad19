/* A fax terminal: a g3_terminal of libg3fax joined to a modem. What is said, what is listened for and which wait runs the library decides;
 * when, by a clock of samples, is decided here. It knows no signal processing. */
#ifndef TERMINAL_H
#define TERMINAL_H
#include "g3fax.h"
#include "modem.h"

/* Keeps a page that an answerer has stored; whether it is kept. A page is confirmed only then; where it isn't, the call is ended. */
typedef struct terminal_pages {
    int (*keep)(void *user, g3_page *page);
    void *user;
} terminal_pages;

typedef struct terminal terminal;
/* Makes a terminal of a caller, if `pages` is NULL, or of an answerer. The handle and the modem stay the program's, and are used until the
 * terminal is freed. NULL if memory is refused. */
terminal *terminal_new(g3_terminal *station, const terminal_pages *pages, const modem_kind *kind, modem *modem);
void terminal_free(terminal *it);
/* One slice of 5 ms: what is heard, and what is said meanwhile. */
void terminal_step(terminal *it, const int16_t *in, int16_t *out);
/* Whether it has hung up. */
int terminal_is_over(const terminal *it);
/* Ends the call by DCN, as g3_terminal_stop does, but soon: what goes out is cut, and what comes in isn't waited for. */
void terminal_hurry(terminal *it);
/* The line is gone: hangs up. */
void terminal_lose(terminal *it);
/* An answerer answers CTC by CTR from now on. CTC is outside what the library proves: other machines send it after the fourth PPR of a
 * block, and go on by a carrier that it names, which trains anew. Without this it isn't answered. */
void terminal_answer_ctc(terminal *it);
/* Names this station in what it sends, as `text` says, which is kept by address and fits identity_is. */
void terminal_identify(terminal *it, const char *text);
/* The figures of the call so far, which change with it. */
const g3_figures *terminal_figures(const terminal *it);
/* Why the terminal itself has ended the call; NULL if it hasn't. */
const char *terminal_why(const terminal *it);
/* The name of the frame that was heard last, if it wants an answer that this station doesn't give; NULL: it isn't one, or has no name. */
const char *terminal_left_out(const terminal *it);
/* Tells what happens to `line`, each with the time in milliseconds and this name. */
void terminal_tell(terminal *it, const char *name, void (*line)(const char *text));
#endif
