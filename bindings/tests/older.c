/* A program of the last version that is out: it is compiled with the header of then, and linked to an empty library that has the functions
 * of then, whose names are in names.h; and it runs over the library of today. Before the first version is out "then" is today. Each function has to be there. Each struct that
 * is written is written as it was, with no octet after it; one that begins with a size that isn't known is refused, and stays as it was.
 * Prints what differs, and ends with 1 then. */
#include "g3fax.h"
#include <stdio.h>
#include <string.h>
/* words of a struct that are left out are 0 */
#pragma GCC diagnostic ignored "-Wmissing-field-initializers"

enum { ROOM = 520, FILLER = 0xA5 };
static union { uint64_t size; uint8_t octets[ROOM]; g3_signal signal; g3_state state; g3_burst burst; g3_params params; } room;
static int bad;

static g3_page page = G3_EMPTY;
static g3_octets octets = G3_EMPTY;
static g3_deframer deframer = G3_EMPTY;
static g3_terminal answerer = G3_EMPTY;
static const uint8_t MCF[] = {0xff, 0x13, 0x8c};

static void is(int right, const char *what, const char *why)
{
    if (!right) printf("older: %s: %s\n", what, why), bad = 1;
}

/* Whether the octets from a place on are as they were. */
static int is_left_from(size_t at)
{
    while (at < ROOM && room.octets[at] == FILLER) at++;
    return at == ROOM;
}

static int is_zero(const void *words, size_t length)
{
    while (length > 0 && ((const uint8_t *)words)[length - 1] == 0) length--;
    return length == 0;
}

static g3_status call(g3_status (*function)(void), uint64_t size)
{
    memset(room.octets, FILLER, ROOM);
    room.size = size;
    return function();
}

/* Tries a function that writes a struct at `room`, which was of a size: it has a status by that, and another one by any other. */
static void try_struct(const char *what, g3_status (*function)(void), uint64_t size, g3_status wanted)
{
    const uint64_t others[] = {0, 8, size - 8, size - 1, size + 1, size << 32, UINT64_MAX, size + 8, 4096};
    for (size_t i = 0; i < sizeof others / sizeof others[0]; i++) {
        is(call(function, others[i]) == (i < 7 ? G3_BAD_SIZE : G3_NEWER_STRUCT), what, "another size isn't refused, or not by its own status");
        is(room.size == others[i] && is_left_from(sizeof room.size), what, "it is written though its size isn't known");
    }
    is(call(function, size) == wanted, what, "it has another status");
    is(room.size == size && is_left_from(size), what, "more is written than it had");
}

static g3_status page_size(void) { return g3_page_size(&page, (void *)&room); }
static g3_status deframer_counts(void) { return g3_deframer_counts(&deframer, (void *)&room); }
static g3_status state(void) { return g3_terminal_state(&answerer, (void *)&room); }
static g3_status progress(void) { return g3_terminal_progress(&answerer, (void *)&room); }
static g3_status next_burst(void) { return g3_terminal_next_burst(&answerer, &octets, (void *)&room); }
static g3_status params(void) { return g3_terminal_params(&answerer, (void *)&room); }
static g3_status peer(void) { return g3_terminal_peer(&answerer, (void *)&room); }
static g3_status signal_read(void) { return g3_signal_read(MCF, sizeof MCF, (void *)&room); }
static g3_status agree(void)
{
    const g3_dis dis = {1, G3_V17, 1, 2432, 1, 1};
    const g3_wish wish = {G3_V17, G3_MMR, 256};
    uint32_t reason = 0;
    return g3_agree(&dis, &wish, 1728, 1, (void *)&room, &reason);
}
static g3_status signal_write(void)
{
    uint8_t content[300];
    uint64_t count = 0;
    const g3_signal is = {.size = room.size, .kind = G3_MCF};
    return g3_signal_write(&is, G3_ANSWERER, 1, content, sizeof content, &count);
}

int main(void)
{
    static const struct { const char *name; void *volatile at; } ALL[] = { /* volatile: or the compiler leaves it out */
#define NAME(name) {#name, (void *)name},
#include "names.h"
    };
    const uint8_t row[216] = {0x0F, 0xAA};
    const g3_caps caps = {G3_V17, 1, 1, 2432, 1};
    for (size_t i = 0; i < sizeof ALL / sizeof ALL[0]; i++) is(ALL[i].at != NULL, ALL[i].name, "it isn't there");
    is(sizeof ALL / sizeof ALL[0] > 60, "names.h", "it has too few names");
    is(g3_version_number() >= G3_VERSION_NUMBER && g3_version_number() / 100 == G3_VERSION_NUMBER / 100, "version", "it is another one");
    int is_made = g3_page_new(&page, 1728, 1) == G3_OK && g3_page_push_row(&page, row, sizeof row) == G3_OK
        && g3_deframer_new(&deframer) == G3_OK && g3_answerer_new(&answerer, &caps) == G3_OK;
    is(is_made, "handles", "they can't be made");
    try_struct("g3_size", page_size, sizeof(g3_size), G3_OK);
    g3_size *size = (void *)&room;
    is(size->width == 1728 && size->rows == 1 && size->fine == 1 && size->spare == 0, "g3_size", "it says something else");
    try_struct("g3_counts", deframer_counts, sizeof(g3_counts), G3_OK);
    try_struct("g3_state", state, sizeof(g3_state), G3_OK);
    is(room.state.spare == 0, "g3_state", "its spare word isn't 0");
    try_struct("g3_progress", progress, sizeof(g3_progress), G3_OK);
    try_struct("g3_burst", next_burst, sizeof(g3_burst), G3_OK);
    is(room.burst.spare == 0, "g3_burst", "its spare word isn't 0");
    try_struct("g3_params", agree, sizeof(g3_params), G3_OK);
    is(is_zero(room.params.dcs.spare, sizeof room.params.dcs.spare), "g3_params", "its spare words aren't 0");
    try_struct("g3_params of a terminal", params, sizeof(g3_params), G3_NOTHING);
    try_struct("g3_signal of a terminal", peer, sizeof(g3_signal), G3_NOTHING);
    try_struct("g3_signal", signal_read, sizeof(g3_signal), G3_OK);
    is(room.signal.kind == G3_MCF && is_zero(&room.signal.dis, 24 * sizeof(uint32_t)) && room.signal.spare == 0, "g3_signal", "it says something else");
    try_struct("g3_signal that is written", signal_write, sizeof(g3_signal), G3_OK);
    g3_page_free(&page), g3_octets_free(&octets), g3_deframer_free(&deframer), g3_terminal_free(&answerer);
    return bad;
}
