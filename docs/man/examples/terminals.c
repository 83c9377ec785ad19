/* Prints the first burst of an answerer: "v21", and what it listens
 * for then. README.md has the loop of a whole call. */
#include <g3fax.h>
#include <stdio.h>

int main(void)
{
    const g3_caps caps = {.modems = G3_V17, .t6 = 1, .fine = 1,
                          .widest = 2432, .limit = 1};
    g3_terminal answerer = G3_EMPTY;
    g3_octets octets = G3_EMPTY;
    g3_burst burst = G3_INIT(g3_burst);
    g3_state state = G3_INIT(g3_state);
    g3_status status = g3_answerer_new(&answerer, &caps);
    if (status == G3_OK)
        status = g3_terminal_next_burst(&answerer, &octets, &burst);
    if (status == G3_OK) status = g3_terminal_state(&answerer, &state);
    printf("%s, listens %d\n", g3_carrier_name(burst.carrier),
           (int)state.listens);
    g3_octets_free(&octets), g3_terminal_free(&answerer);
    return status != G3_OK;
}
