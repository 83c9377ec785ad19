/* The answers to wrong use: each call is asserted to end with the status that README.md names. */
#include "g3fax.h"
#include <stdio.h>
#include <string.h>

/* words of a struct that are left out are 0 */
#pragma GCC diagnostic ignored "-Wmissing-field-initializers"
#define IS(want, call) is((want), (call), __LINE__)

/* a struct that doesn't begin with its size is refused as it was: a longer one by a status of its own */
#define SIZES(it, call) \
    do { \
        for (uint64_t others = 0; others <= sizeof(it) + 16; others += 8) { \
            if (others == sizeof(it)) continue; \
            memset(&(it), 0x5A, sizeof(it)); \
            memcpy(&(it), &others, sizeof others); \
            IS(others < sizeof(it) ? G3_BAD_SIZE : G3_NEWER_STRUCT, (call)); \
            for (size_t at = sizeof others; at < sizeof(it); at++) IS(0x5A, ((const uint8_t *)&(it))[at]); \
        } \
        memset(&(it), 0, sizeof(it)); \
        (it).size = sizeof(it); \
    } while (0)

/* a struct with a spare word that isn't 0 is refused, and is good without it */
#define SPARES(words, call) \
    do { \
        for (size_t at = 0; at < sizeof(words) / sizeof(uint32_t); at++) { \
            ((uint32_t *)&(words))[at] = 1; \
            IS(G3_NEWER_STRUCT, (call)); \
            ((uint32_t *)&(words))[at] = 0; \
        } \
        IS(1, (call) != G3_NEWER_STRUCT); \
    } while (0)

static uint8_t octets[400];
static int bad;

static void is(g3_status want, g3_status got, int line)
{
    if (got == want) return;
    printf("line %d: %u, not %u\n", line, got, want);
    bad = 1;
}
