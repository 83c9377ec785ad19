#include "class1_inner.h"
#include <stdio.h>
#include <stdlib.h>
#include <string.h>

/* Durations in milliseconds. */
enum {
    AFTER_CAN = 3000,     /* in this time a NO CARRIER is its result, late, and the call goes on */
    NEXT_RING = 10000,    /* a ring that comes later is another call's */
    BETWEEN_ASKS = 30000  /* while nobody calls: whether the modem is still there */
};

static const char *const STEPS[] = {
    "ATZ", "ATE0V1Q0", "ATX4S7=60" /* BUSY is told, and a carrier awaited for 60 s */, NULL /* the program's */, "AT+FCLASS=1",
    "AT+FAR=1", NULL /* what it sends or receives by */};
enum { FIRST, ANSWERS_IN_WORDS, DIALS_WELL, INIT, CLASS, ADAPTS, SPEEDS, STEPS_COUNT };

void class1_set_up(modem *it)
{
    if (it->step == INIT && it->init == it->setup.init_count) it->step++;
    if (it->step == INIT) class1_command(it, SETS_UP, it->setup.inits[it->init]);
    else if (it->step == SPEEDS) class1_command(it, SETS_UP, it->setup.number != NULL ? "AT+FTM=?" : "AT+FRM=?");
    else if (it->step < STEPS_COUNT) class1_command(it, SETS_UP, STEPS[it->step]);
    else {
        it->stage = CLASS1_WAITS;
        it->asked = it->now;
        if (it->setup.number == NULL) return;
        char text[80];
        snprintf(text, sizeof text, "ATDT%s", it->setup.number);
        class1_command(it, DIALS, text);
    }
}

/* A step of the set-up has its result. What a modem needn't have may be an error: how it dials, adaptive reception, and the list of its
 * speeds. One that has a list, and not the slowest modem of all on it, can't make a call. */
static void end_step(modem *it, int is_well)
{
    if (!is_well && it->step == CLASS && it->tries == 0) {
        it->tries++;
        class1_command(it, SETS_UP, "AT+FCLASS=1.0"); /* the later text of T.31, with the same commands */
        return;
    }
    if (!is_well && (it->step == ANSWERS_IN_WORDS || it->step == CLASS || it->step == INIT)) {
        class1_fail(it, it->step == CLASS ? "it has no Class 1: it says ERROR to " : "it says ERROR to ", it->command);
        return;
    }
    if (it->step == SPEEDS && it->lists && class1_modems(it->speeds) == 0) {
        class1_fail(it, "it has no V.27 ter by ", it->command);
        return;
    }
    it->op = FREE;
    it->tries = 0;
    if (it->step == INIT && ++it->init < it->setup.init_count) return;
    it->step++;
}

/* The first command is given twice: it may have ended what an earlier program left. */
void class1_miss_step(modem *it)
{
    if (it->step == FIRST && it->tries++ == 0) {
        class1_put_end(it);
        class1_command(it, SETS_UP, STEPS[FIRST]);
    } else if (it->echoes) class1_fail(it, "it echoes, but has no result for ", it->command);
    else class1_fail(it, "it doesn't answer to ", it->command);
}

void class1_await_ring(modem *it)
{
    if (it->setup.number != NULL) return;
    if (it->rings <= 0) {
        it->stage = CLASS1_IS_ON;
        class1_command(it, ANSWERS, "ATA");
    } else if (it->now - it->asked >= BETWEEN_ASKS) class1_command(it, ASKS, "AT");
}

/* What is known of an earlier call is forgotten. */
static void begin_ringing(modem *it)
{
    if (it->now - it->rang <= NEXT_RING) return;
    it->rings = it->setup.rings;
    it->caller_number[0] = it->caller_name[0] = 0;
}

static void take_ring(modem *it)
{
    begin_ringing(it);
    it->rang = it->asked = it->now;
    it->rings--;
}

/* Takes the value of a line as "NMBR = 5551234"; whether it is one of this name. */
static int take_value(const char *line, const char *name, char *to, size_t room)
{
    size_t length = strlen(name), filled = 0;
    if (strncmp(line, name, length) != 0) return 0;
    line += length;
    while (*line == ' ') line++;
    if (*line++ != '=') return 0;
    while (*line == ' ') line++;
    for (; *line != 0 && filled + 1 < room; line++) to[filled++] = *line >= ' ' && *line <= '~' ? *line : '?';
    while (filled > 0 && to[filled - 1] == ' ') filled--;
    to[filled] = 0;
    return 1;
}

/* Who calls: modems tell it between two rings, or before the first one. */
void class1_note_line(modem *it, const char *line)
{
    char number[sizeof it->caller_number] = "", name[sizeof it->caller_name] = "";
    int has_number = take_value(line, "NMBR", number, sizeof number), has_name = take_value(line, "NAME", name, sizeof name);
    if (!has_number && !has_name && it->op == SETS_UP && it->step == SPEEDS) it->lists |= class1_add_list(&it->speeds, line);
    if ((!has_number && !has_name) || it->stage > CLASS1_WAITS) return;
    begin_ringing(it);
    it->rang = it->now;
    if (has_number) memcpy(it->caller_number, number, sizeof number);
    if (has_name) memcpy(it->caller_name, name, sizeof name);
}

const char *class1_caller_number(const modem *it)
{
    return it->caller_number;
}

const char *class1_caller_name(const modem *it)
{
    return it->caller_name;
}

void class1_call_result(modem *it, int is, const char *line)
{
    switch (it->op) {
    case SETS_UP:
        if (is == RING) take_ring(it); /* it is answered once the modem is set up */
        else end_step(it, is == OK);
        return;
    case ASKS:
        if (is == RING) {
            take_ring(it);
            return;
        }
        it->op = FREE;
        it->asked = it->now;
        return;
    case DIALS:
        if (is == CONNECT) {
            it->stage = CLASS1_IS_ON;
            class1_connect_frame(it);
        } else if (is != RING) class1_fail(it, "the modem says ", line);
        return;
    case ANSWERS:
        if (is == CONNECT) class1_begin(it, FTH_HELD);
        else if (is != RING) class1_fail(it, "the modem says ", line);
        return;
    case GOES_ON_HOOK:
        if (is == RING) return;
        it->op = FREE;
        it->stage = CLASS1_IS_OVER;
        return;
    default: /* FREE */
        if (is == RING && it->stage <= CLASS1_WAITS) take_ring(it);
        if (is == NO_CARRIER && it->stage == CLASS1_IS_ON && it->now - it->aborted > AFTER_CAN) class1_fail(it, "the modem says ", line);
    }
}

/* Makes it as it is before a call. */
static void make_fresh(modem *it, const port *port, const class1_setup *setup)
{
    static const modem fresh;
    *it = fresh;
    it->port = *port;
    it->setup = *setup;
    it->rings = setup->rings;
    it->aborted = -AFTER_CAN - 1;
    it->rang = -NEXT_RING - 1;
}

modem *class1_new(const port *port, const class1_setup *setup)
{
    modem *it = malloc(sizeof *it);
    if (it != NULL) make_fresh(it, port, setup);
    return it;
}

int class1_again(modem *it)
{
    port port = it->port;
    class1_setup setup = it->setup;
    int64_t now = it->now;
    uint32_t speeds = it->speeds;
    if (it->stage != CLASS1_IS_OVER || it->step < STEPS_COUNT || it->is_gone || it->unanswered > 0) return 0;
    make_fresh(it, &port, &setup);
    it->now = it->asked = now;
    it->aborted += now;
    it->rang += now;
    it->speeds = speeds;
    it->step = STEPS_COUNT;
    it->stage = CLASS1_WAITS;
    return 1;
}
