/* random CALLS: calls of every function on random handles, of any kind, with random words and NULL; each status is one of the table, and
 * no block is left. The same number of calls is the same calls. What calls each function of g3fax.h, random_calls.h, is written by
 * from_header.py: here is what its words and structs are, and calls that go further than such a one. */
#include "g3fax.h"
#include "heap.h"
#include <stdint.h>
#include <stdio.h>
#include <stdlib.h>
#include <string.h>
/* words of a struct that are left out are 0 */
#pragma GCC diagnostic ignored "-Wmissing-field-initializers"

static uint64_t state = 88172645463325252u;
static uint8_t buffer[512];

/* a number below another one */
static uint32_t below(uint32_t end)
{
    state ^= state << 13;
    state ^= state >> 7;
    state ^= state << 17;
    return (uint32_t)(state >> 32) % end;
}

static uint64_t told, place, now;
static uint32_t why;
static const uint8_t *address;

/* A number for a parameter of a name, mostly one that is allowed. */
static uint64_t word(const char *name)
{
    static const struct { const char *name; uint32_t end; } ends[] = {
        {"fine", 2}, {"is", 2}, {"last", 2}, {"order", 3}, {"coding", 4}, {"first", 4}, {"number", 4}, {"side", 4}, {"line", 5}, {"wait", 7},
        {"carrier", 12}, {"end", 20}, {"status", 120}};
    if (strcmp(name, "width") == 0) return below(2) ? (below(2) ? 8 : 1728) : below(3000);
    if (strcmp(name, "stride") == 0) return below(20) ? below(6) : (uint64_t)below(UINT32_MAX) << 32;
    if (strcmp(name, "used") == 0) return below(4) ? below(2000) : (uint64_t)below(UINT32_MAX) << 32;
    if (strcmp(name, "seconds") == 0) return below(4) ? below(2000) : 0;
    if (strcmp(name, "now") == 0) return now += below(4) ? below(9000) : 0;
    for (size_t at = 0; at < sizeof ends / sizeof ends[0]; at++)
        if (strcmp(name, ends[at].name) == 0) return below(ends[at].end);
    return below(9) ? below(5) : below(UINT32_MAX);
}

/* Structs that are read. */
static const g3_code *a_code(void)
{
    static g3_code code;
    return code = (g3_code){below(4), below(3), below(2) ? 8 : below(3000), below(3), {below(50) == 0}}, &code;
}
static const g3_raster *a_raster(void)
{
    static g3_raster raster;
    return raster = (g3_raster){word("stride"), below(2) ? 8 : below(3000), below(20) ? below(50) : below(30000), 1, {below(50) == 0}}, &raster;
}
static const g3_caps *a_caps(void)
{
    static g3_caps caps;
    return caps = (g3_caps){below(5), below(2), below(2), below(8) ? 1728 : below(3000), below(4), {below(50) == 0}}, &caps;
}
static const g3_wish *a_wish(void)
{
    static g3_wish wish;
    return wish = (g3_wish){below(5), below(4), below(3) ? 64 : below(300), {below(50) == 0}}, &wish;
}
static const g3_dis *a_dis(void)
{
    static g3_dis dis;
    return dis = (g3_dis){below(9) != 0, below(7), below(2), below(9) ? 2432 : below(3000), below(2), below(9) != 0, {below(50) == 0}}, &dis;
}

/* Structs that are written: the right size, but for some calls. */
#define WRITTEN(name) \
    static g3_##name *a_##name(void) \
    { \
        static g3_##name name; \
        return name.size = below(50) ? sizeof name : below(500), &name; \
    }
WRITTEN(size)
WRITTEN(counts)
WRITTEN(found)
WRITTEN(burst)
WRITTEN(state)
WRITTEN(progress)
WRITTEN(params)

/* A signal that is written or read: what was read last, with other words. */
static g3_signal *a_signal(void)
{
    static g3_signal signal;
    signal.size = below(50) ? sizeof signal : below(500);
    if (below(2)) signal.kind = below(14);
    if (below(2)) signal.length = below(4) ? 32 : below(300);
    if (below(4) == 0) signal.dis.modems = below(7), signal.dcs.frame = below(300), signal.pps.page = below(300);
    return &signal;
}

/* Handles, of any kind: a page is freed as octets are. Each has the kind that it was meant for last. */
enum { HANDLES = 12 };
static g3_page handles[HANDLES];
static int kinds[HANDLES];

/* One of a kind with a value, or an empty one, if such a handle is met; at times any, or NULL. */
static void *met(int kind, int is_full)
{
    uint32_t at = below(HANDLES), tries = below(8) ? HANDLES : 0;
    while (tries-- > 0 && ((handles[at].at != NULL) != is_full || (is_full && kinds[at] != kind))) at = (at + 1) % HANDLES;
    if (!is_full && handles[at].at == NULL) kinds[at] = kind;
    return below(50) ? &handles[at] : NULL;
}
static void *full(int kind) { return met(kind, 1); }
static void *empty(int kind) { return met(kind, 0); }

#include "random_calls.h"

/* One terminal hears the next burst of another one, so that calls go on. */
static g3_status hears(void)
{
    static uint8_t line[1 << 17];
    g3_octets octets = G3_EMPTY;
    g3_burst burst = G3_INIT(g3_burst);
    uint64_t count = 0;
    void *from = full(A_TERMINAL), *to = full(A_TERMINAL);
    g3_status status = g3_terminal_next_burst(from, &octets, &burst);
    if (status == G3_OK) status = g3_octets_copy(&octets, line, sizeof line, &count);
    g3_octets_free(&octets);
    if (status != G3_OK) return status;
    return burst.check ? g3_terminal_hear_training(to, line, count) : g3_terminal_hear(to, line, count);
}

/* A call of any function, or one that goes further. */
static g3_status call(void)
{
    static const uint8_t heads[] = {0x80, 0x83, 0x84, 0x44, 0x06, 0x86, 0xBF, 0xBC, 0x8C, 0xEC, 0x6F, 0xFB};
    static uint8_t room[sizeof buffer];
    size_t length = below(sizeof buffer + 1);
    uint32_t which = below(FUNCTIONS + 20);
    for (size_t at = 0; at < length; at += 1 + below(40)) buffer[at] = (uint8_t)below(256);
    switch (which - FUNCTIONS) {
    case 0: /* contents of signals, and of what isn't one */
        buffer[0] = 255, buffer[1] = 3, buffer[2] = heads[below(12)];
        return g3_signal_read(buffer, length, a_signal());
    case 1: /* what an address leads to is there */
        address = NULL;
        if (g3_octets_data(full(A_OCTETS), &address, &told) == G3_OK)
            for (uint64_t at = 0; at < told; at++) buffer[at % sizeof buffer] ^= address[at];
        return G3_OK;
    case 2: case 3: return g3_page_new(empty(A_PAGE), 1728, 0);
    case 4: case 5: return g3_page_push_row(full(A_PAGE), buffer, sizeof buffer);
    case 6: g3_page_free(&handles[below(HANDLES)]); return G3_OK;
    default: return which < FUNCTIONS ? any(which, below(50) ? buffer : NULL, below(50) ? room : NULL, length) : hears();
    }
}

int main(int argc, char **argv)
{
    int bad = 0;
    for (int calls = argc == 2 ? atoi(argv[1]) : 0; calls > 0; calls--) {
        if (below(20) == 0) refused = grown + 1 + below(4);
        g3_status status = call();
        int is_known = status <= G3_TOO_MANY_CODED_ROWS || (status >= G3_BAD_ADDRESS && status <= G3_SHORT_FIELD)
            || status == G3_NOT_CALLABLE || status == G3_NOT_COMPATIBLE
            || (status >= G3_EMPTY_HANDLE && status <= G3_NO_ADDRESS);
        if (!is_known) printf("status %u\n", status), bad = 1;
    }
    for (int at = 0; at < HANDLES; at++) g3_page_free(&handles[at]);
    if (blocks != 0) printf("%ld blocks are left\n", blocks), bad = 1;
    return bad;
}
