/* The initializers of g3fax.h, in C99 to C17 and in C++98 to C++20: .ci/bindings.sh compiles it as each. Ends with 0 if what they make is
 * empty, but for the sizes. */
#include "g3fax.h"

static g3_state shared = G3_INIT(g3_state);
static g3_page page = G3_EMPTY;

#define MAKES(type) \
    do { \
        const type it = G3_INIT(type); \
        type other = it; \
        other = G3_INIT_OF(type); \
        bad |= is_made(&it, sizeof it) | is_made(&other, sizeof other); \
    } while (0)

/* Whether it isn't made: it begins with its size, and 0 follows. */
static int is_made(const void *it, uint64_t size)
{
    const uint8_t *octets = (const uint8_t *)it;
    uint64_t at, given = 0;
    for (at = 0; at < 8; at++) given |= (uint64_t)octets[at] << 8 * at;
    for (; at < size; at++) if (octets[at] != 0) return 1;
    return given != size;
}

int main(void)
{
    int bad = is_made(&shared, sizeof shared) | (page.at != NULL);
    MAKES(g3_size);
    MAKES(g3_counts);
    MAKES(g3_burst);
    MAKES(g3_state);
    MAKES(g3_progress);
    MAKES(g3_params);
    MAKES(g3_signal);
    MAKES(g3_found);
    page.at = &shared;
    page = G3_EMPTY_OF(g3_page);
    return bad | (page.at != NULL);
}
