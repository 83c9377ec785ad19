/* What class1.c and class1_setup.c share: all that is known of a Class 1 modem. */
#ifndef CLASS1_INNER_H
#define CLASS1_INNER_H
#include "class1.h"
#include "class1_frame.h"
#include "class1_words.h"
#include "waiting.h"

/* What the modem is doing. Each op but FREE, FRH and the data that come is bounded by LONGEST; FRH is ended by what the terminal says. */
enum op {
    FREE,                                                /* it takes a command */
    SETS_UP, ASKS, DIALS, ANSWERS, AWAITS_SILENCE, ABORTS, GOES_ON_HOOK, /* a command with one result */
    FRH, FRH_DATA, FRH_END,                              /* +FRH: until CONNECT, a frame, and the result after it */
    FRM, FRM_DATA, FRM_END,
    FTH, FTH_HELD, FTH_END,                              /* held: CONNECT has come, and there is no frame yet */
    FTM, FTM_DATA, FTM_END,
    OPS
};

struct modem {
    port port;
    class1_setup setup;
    int64_t now, since, moved;  /* since: when the op began; moved: the last octet of data that came or went */
    int64_t aborted, rang, asked;
    int stage, op, step;        /* step: of the set-up */
    int tries;                  /* how often the command of this step was given again */
    int init;                   /* how many of the program's commands were given */
    int lists;                  /* it has listed what it sends or receives by */
    int rings, hangs_up, is_gone, is_lost;
    char caller_number[32], caller_name[40]; /* as the modem has told them; "": not */
    char why[160];
    char command[80], line[80]; /* the last command; a result as it comes */
    int is_aborted;             /* a CAN has its result */
    int filled, echoes;         /* echoes: the command came back, and no result yet */
    int unanswered;
    uint32_t speeds;            /* the set of its list */
    ring out;
    /* what is said */
    int says, in_turn, wants_silence;
    uint32_t carrier;
    int brief;
    frames contents;            /* by V.21 */
    const uint8_t *octets;      /* of a page or a check */
    uint64_t count, at;
    int stopped, ended_again;   /* stopped: by XOFF; ended_again: DLE ETX was written once more */
    int64_t connected;
    /* what is heard */
    class1_frame frame;         /* that comes */
    int escaped;                /* of a page: DLE has come */
    frames heard;
    ring page;
    int is_listening, is_brief, page_next, answers_next;
    uint32_t listens;
    int64_t not_before;
    int in_signal, more;        /* more: frames of this signal are still to come */
    int begins, trains, ends, errors;
};

/* Begins an op now. */
void class1_begin(modem *it, int op);
/* Gives a command, and begins its op. */
void class1_command(modem *it, int op, const char *text);
/* Writes the end of data, DLE ETX. */
void class1_put_end(modem *it);
/* A reason why there is no call; the first one is kept: what follows is its consequence. */
void class1_fail(modem *it, const char *why, const char *what);
/* A frame begins. */
void class1_connect_frame(modem *it);

/* Gives the next command of the set-up; after the last one dials, or waits for a ring. */
void class1_set_up(modem *it);
/* The op of the set-up has no result in time. */
void class1_miss_step(modem *it);
/* Answers a call that has rung so often, and asks now and then whether the modem is there. */
void class1_await_ring(modem *it);
/* A result of what makes or ends the call. */
void class1_call_result(modem *it, int is, const char *line);
/* A line that is no result, before the call. */
void class1_note_line(modem *it, const char *line);
#endif
