/* The words of softfax's command line. */
#ifndef OPTIONS_H
#define OPTIONS_H
#include <stdint.h>

enum { MOST_FILES = 256, MOST_INITS = 4, FOREVER = -1, MOST_SECONDS = 4 * 3600 };

typedef struct options {
    int calls, answers, fine, square, refuses_ctc, tells, json;
    int rings;
    int most_seconds, limits_wait;        /* most_seconds: of a call; 0 for no limit. limits_wait: also before a call */
    int most_calls;                       /* how many calls are answered, each into a folder of its own; 0: one, into the folder itself */
    int waits_for_tty;                    /* a tty that isn't there, or whose modem fails, is tried again */
    uint64_t most_pages, most_octets;     /* that an answerer stores of a call; 0: no limit */
    const char *folder, *rx, *tx, *wav;
    const char *tty, *number, *trace, *identity;
    const char *header, *font;            /* the text at the head of each page that is sent; NULL: there is none. And a font for it */
    const char *inits[MOST_INITS];        /* commands of the set-up, or names of inits.txt */
    int init_count;
    int xon;                              /* XON and XOFF alone hold a modem's octets back, and not RTS and CTS */
    uint32_t modems, coding;
    const char *pages[MOST_FILES];
    int count;
} options;

/* Reads the words; returns whether they are a command. */
int options_read(options *out, int argc, char **argv);
void options_usage(void);
#endif
