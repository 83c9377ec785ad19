/* The functions of g3fax.h: each tests its addresses for NULL and the sizes of structs, and calls the proved function of the same name,
 * g3_core_.. A NULL handle is an empty one; if another address is NULL, the status is G3_NO_ADDRESS. Most have one shape: from_header.py
 * writes these, as wrappers.h. Here are those of another shape, and the version. */
#include "g3fax.h"
#include <string.h>

/* a handle of any kind: the proved functions tell the kinds apart */
typedef struct handle { void *at; } handle;
void g3_core_free(handle *);
/* of what octets are it reaches what is between its size and the name of a format, which is passed beside it */
g3_status g3_core_identify(const uint8_t *, size_t, void *, uint8_t *, size_t);
g3_status g3_core_octets_data(handle *, const uint8_t **, uint64_t *);
/* how reading ended, as the proved function has it */
typedef struct ended { uint64_t place; uint32_t fault; } ended;
g3_status g3_core_page_salvage(const uint8_t *, size_t, const g3_code *, handle *, ended *);
g3_status g3_core_terminal_params(handle *, void *);
/* of a signal these reach what `said` has, and its octets, which are passed beside it */
g3_status g3_core_terminal_peer(handle *, void *);
g3_status g3_core_signal_read(const uint8_t *, size_t, void *, uint8_t *, size_t);
g3_status g3_core_signal_write(const void *, const uint8_t *, size_t, uint32_t, uint32_t, uint8_t *, size_t, uint64_t *);
g3_status g3_core_agree(const g3_dis *, const g3_wish *, uint32_t, uint32_t, void *, uint32_t *);
g3_status g3_core_row_coder_new(const g3_code *, handle *);
g3_status g3_core_row_reader_new(const g3_code *, handle *);
/* a text that the proved functions have: the last of its octets is 0 */
typedef struct text {
    const uint8_t *at;
    size_t length;
} text;

#define HANDLE(it) do { if ((it) == NULL) return G3_EMPTY_HANDLE; } while (0)
#define PLACE(it) do { if ((it) == NULL) return G3_NO_ADDRESS; } while (0)
/* two handles at one address, of which one is to be filled, or moves into the other: none is both */
#define APART(one, other, full) do { if ((void *)(one) == (void *)(other)) return (one)->at == NULL ? G3_EMPTY_HANDLE : (full); } while (0)
/* octets at NULL are none: an address stands for them */
#define OCTETS(it, length) do { if ((it) == NULL) { PLACE((length) == 0 ? none : NULL); (it) = none; } } while (0)
static uint8_t none[1];
/* What a const handle has, as a handle of its own while a function reads it. The proved function leaves the same value in that, and nothing
 * writes to the other one: so many threads may read it. */
#define READ(it) (&(handle){(it)->at})
/* A struct that is written begins with its size, by which the header is known that the program was built with. The proved functions
 * have what comes after it. */
static g3_status sized(uint64_t given, uint64_t known)
{
    if (given == known) return G3_OK;
    return given > known && given <= 4096 && given % 8 == 0 ? G3_NEWER_STRUCT : G3_BAD_SIZE;
}
#define SIZED(it) do { PLACE(it); const g3_status known = sized((it)->size, sizeof *(it)); if (known != G3_OK) return known; } while (0)
#define REST(it) ((void *)((char *)(it) + sizeof (it)->size))
/* Spare words that are read are 0. */
static int any(const uint32_t *words, size_t count)
{
    while (count > 0 && words[count - 1] == 0) count--;
    return count > 0;
}
#define IS_NEWER(it) any((it).spare, sizeof (it).spare / sizeof *(it).spare)
/* The spare word of a struct that was written is 0. */
static g3_status spared(g3_status status, uint32_t *spare)
{
    if (status == G3_OK) *spare = 0;
    return status;
}
#define SPARE(it) do { PLACE(it); if (IS_NEWER(*(it))) return G3_NEWER_STRUCT; } while (0)
/* A struct lies as the proved functions have it, up to its spare words, if it has any; and no octets at its end are padding, so that each word
 * that is put there changes its size. */
#define LIES(type, member, at, last, core) _Static_assert(__builtin_offsetof(type, member) == (at) && __builtin_offsetof(type, last) == (at) + (core), \
    #type " lies otherwise")
#define ENDS(type, last) _Static_assert(__builtin_offsetof(type, last) + sizeof ((type *)0)->last == sizeof(type), #type " ends in padding")
LIES(g3_size, width, 8, spare, 12);
LIES(g3_counts, good, 8, damaged, 40);
LIES(g3_burst, bits, 8, spare, 20);
LIES(g3_state, pages, 8, spare, 36);
LIES(g3_progress, pages, 8, figures, 80);
LIES(g3_figures, blocks, 0, peer, 60);
LIES(g3_found, place, 8, format, 40);
LIES(g3_code, coding, 0, spare, 16);
LIES(g3_raster, stride, 0, spare, 20);
LIES(g3_caps, modems, 0, spare, 20);
LIES(g3_wish, modems, 0, spare, 12);
ENDS(g3_size, spare);
ENDS(g3_counts, damaged);
ENDS(g3_burst, spare);
ENDS(g3_state, spare);
ENDS(g3_progress, figures);
ENDS(g3_figures, peer);
ENDS(g3_found, format);
ENDS(g3_code, spare);
ENDS(g3_raster, spare);
ENDS(g3_caps, spare);
ENDS(g3_wish, spare);
ENDS(g3_dis, spare);
ENDS(g3_dcs, spare);
ENDS(g3_block, spare);
ENDS(g3_params, dcs);
ENDS(g3_signal, octets);

/* A signal as the proved functions have it: its size, its octets and spare words aren't there. */
typedef struct said {
    uint64_t length;
    uint32_t kind, dis[6], dcs[5], pps[4], number, control;
} said;
#define SAYS(type, last, words) _Static_assert(__builtin_offsetof(type, spare) == sizeof ((said *)0)->words && \
    __builtin_offsetof(type, last) + sizeof(uint32_t) == __builtin_offsetof(type, spare), #type " lies otherwise")
SAYS(g3_dis, ecm, dis);
SAYS(g3_dcs, frame, dcs);
SAYS(g3_block, last, pps);
/* What was said, as a signal; the octets that it has are there already. */
static void says(const said *from, g3_signal *to)
{
    to->length = from->length, to->kind = from->kind, to->number = from->number, to->control = from->control, to->spare = 0;
    to->dis = (g3_dis){0}, to->dcs = (g3_dcs){0}, to->pps = (g3_block){0};
    memcpy(&to->dis, from->dis, sizeof from->dis);
    memcpy(&to->dcs, from->dcs, sizeof from->dcs);
    memcpy(&to->pps, from->pps, sizeof from->pps);
}

#include "wrappers.h"

/* What was agreed on, if anything was. */
static g3_status agreed(g3_status status, const said *from, g3_params *to)
{
    if (status != G3_OK) return status;
    to->dcs = (g3_dcs){0};
    memcpy(&to->dcs, from->dcs, sizeof from->dcs);
    return status;
}

g3_status g3_identify(const uint8_t *octets, size_t length, g3_found *found)
{
    OCTETS(octets, length); SIZED(found);
    g3_status status = g3_core_identify(octets, length, REST(found), (uint8_t *)found->format, sizeof found->format - 1);
    if (status == G3_OK) found->format[found->length] = 0;
    return status;
}
g3_status g3_page_salvage(const uint8_t *octets, size_t length, const g3_code *code, g3_page *out, uint32_t *fault, uint64_t *place)
{
    ended end = {0, 0};
    OCTETS(octets, length); SPARE(code); HANDLE(out); PLACE(fault); PLACE(place);
    g3_status status = g3_core_page_salvage(octets, length, code, (handle *)out, &end);
    if (status == G3_OK) *fault = end.fault, *place = end.place;
    return status;
}
g3_status g3_row_coder_new(g3_row_coder *out, const g3_code *code)
{
    HANDLE(out); SPARE(code);
    return g3_core_row_coder_new(code, (handle *)out);
}
g3_status g3_row_reader_new(g3_row_reader *out, const g3_code *code)
{
    HANDLE(out); SPARE(code);
    return g3_core_row_reader_new(code, (handle *)out);
}
g3_status g3_octets_data(const g3_octets *octets, const uint8_t **data, uint64_t *count)
{
    HANDLE(octets); PLACE(data); PLACE(count);
    g3_status status = g3_core_octets_data(READ(octets), data, count);
    if (status == G3_OK && *count == 0) *data = NULL;
    return status;
}

g3_status g3_terminal_params(const g3_terminal *terminal, g3_params *params)
{
    said it = {0};
    HANDLE(terminal); SIZED(params);
    return agreed(g3_core_terminal_params(READ(terminal), it.dcs), &it, params);
}
g3_status g3_terminal_peer(const g3_terminal *terminal, g3_signal *signal)
{
    said it;
    HANDLE(terminal); SIZED(signal);
    g3_status status = g3_core_terminal_peer(READ(terminal), &it);
    if (status == G3_OK) says(&it, signal);
    return status;
}
g3_status g3_signal_read(const uint8_t *content, size_t length, g3_signal *signal)
{
    said it;
    OCTETS(content, length); SIZED(signal);
    g3_status status = g3_core_signal_read(content, length, &it, signal->octets, sizeof signal->octets);
    if (status == G3_OK) says(&it, signal);
    return status;
}
g3_status g3_signal_write(const g3_signal *signal, uint32_t side, uint32_t last, uint8_t *buffer, size_t room, uint64_t *count)
{
    SIZED(signal); OCTETS(buffer, room); PLACE(count);
    if (IS_NEWER(signal->dis) || IS_NEWER(signal->dcs) || IS_NEWER(signal->pps) || signal->spare != 0) return G3_NEWER_STRUCT;
    said it = {.length = signal->length, .kind = signal->kind, .number = signal->number, .control = signal->control};
    memcpy(it.dis, &signal->dis, sizeof it.dis);
    memcpy(it.dcs, &signal->dcs, sizeof it.dcs);
    memcpy(it.pps, &signal->pps, sizeof it.pps);
    return g3_core_signal_write(&it, signal->octets, sizeof signal->octets, side, last, buffer, room, count);
}
g3_status g3_agree(const g3_dis *dis, const g3_wish *wish, uint32_t width, uint32_t fine, g3_params *params, uint32_t *reason)
{
    said it = {0};
    SPARE(dis); SPARE(wish); SIZED(params); PLACE(reason);
    return agreed(g3_core_agree(dis, wish, width, fine, it.dcs, reason), &it, params);
}

_Static_assert(G3_VERSION_NUMBER == G3_BUILT, "g3fax.h has the number of another version");
const char *g3_version(void) { return G3_VERSION; }
uint32_t g3_version_number(void) { return G3_VERSION_NUMBER; }
