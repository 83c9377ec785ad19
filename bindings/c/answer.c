/* answer OUT.pbm: an answerer, whose modem says by lines of text on standard input what is on the line and when, and gets lines with the
 * bursts to be sent; docs/STATION.md has them. Each page is added to the file, after those of earlier calls, before it can be confirmed.
 * Each answer is flushed, since the program that has the modem waits for it. */
#include "g3fax.h"
#include "files.h"
#include <string.h>

static char line[1 << 19], word[16], name[16], kind[16];
static uint8_t octets[1 << 23]; /* a burst, or an image */
static g3_terminal terminal = G3_EMPTY;
static unsigned long long now; /* the line's time, in milliseconds */
static int begun;

/* A burst has come. It is heard where it came by a carrier that the station listens for. */
static g3_status receive(const g3_state *state, const char *hex)
{
    uint32_t carrier = 9, check = strcmp(kind, "raw") == 0, length = 0;
    for (char digits[3] = ""; (digits[0] = hex[0]) > ' ' && (digits[1] = hex[1]) > ' '; hex += 2)
        octets[length++] = (uint8_t)strtoul(digits, NULL, 16);
    while (carrier > 0 && strcmp(name, g3_carrier_name(carrier)) != 0) carrier--;
    int awaited = state->carrier == carrier && (check ? state->listens == G3_HEARS_CHECK : state->listens >= G3_HEARS_PAGES);
    if (!begun || !(awaited || (carrier == G3_V21 && !check))) return G3_OK;
    return (check ? g3_terminal_hear_training : g3_terminal_hear)(&terminal, octets, length);
}

/* What a line says. A wait is over on a quiet line alone, and what has come counts at the line's time. */
static g3_status take(const g3_state *state)
{
    int hex = 0, words = sscanf(line, "%15s %llu %15s %15s %*u %n", word, &now, name, kind, &hex);
    int is_quiet = strcmp(word, "quiet") == 0, has_come = words == 4 && strcmp(word, "rx") == 0;
    g3_status status = has_come ? receive(state, line + hex) : G3_OK;
    if (is_quiet && now >= 1000) begun = 1;
    if (has_come || is_quiet || strcmp(word, "busy") == 0) {
        g3_status ticks = g3_terminal_tick(&terminal, now, is_quiet ? G3_QUIET : G3_CARRIER);
        return status == G3_OK ? ticks : status;
    }
    if (strcmp(word, "not-ready") == 0 || strcmp(word, "ready") == 0) return g3_terminal_set_busy(&terminal, word[0] == 'n');
    if (strcmp(word, "stop") == 0) return begun = 1, g3_terminal_stop(&terminal);
    return strcmp(word, "end") == 0 ? g3_terminal_lost(&terminal) : G3_OK;
}

/* Adds the pages that were stored to the file. Where that fails, the answerer hangs up in place of confirming. */
static g3_status keep(FILE *out)
{
    g3_page page = G3_EMPTY;
    g3_octets text = G3_EMPTY;
    uint64_t count = 0;
    g3_status status = g3_terminal_take_page(&terminal, &page);
    if (status == G3_NOTHING) return G3_OK;
    int is_kept = status == G3_OK && g3_page_write_pbm(&page, &text) == G3_OK
        && g3_octets_copy(&text, octets, sizeof octets, &count) == G3_OK && fwrite(octets, 1, count, out) == count && fflush(out) == 0;
    g3_page_free(&page); g3_octets_free(&text);
    return is_kept ? keep(out) : g3_terminal_hang_up(&terminal);
}

/* Sends what is to be sent, and tells the state after it. */
static g3_status say(g3_state *state)
{
    g3_octets bits = G3_EMPTY;
    g3_burst burst = G3_INIT(g3_burst);
    uint64_t count = 0;
    g3_status status = begun ? g3_terminal_next_burst(&terminal, &bits, &burst) : G3_NOTHING;
    if (status == G3_NOTHING) return g3_terminal_state(&terminal, state);
    if (status == G3_OK) status = g3_octets_copy(&bits, octets, sizeof octets, &count);
    g3_octets_free(&bits);
    if (status != G3_OK) return status;
    printf("tx %s %s %llu ", g3_carrier_name(burst.carrier), burst.check ? "raw" : "hdlc", (unsigned long long)burst.bits);
    for (uint64_t at = 0; at < count; at++) printf("%02X", octets[at]);
    return printf("\n"), say(state);
}

int main(int argc, char **argv)
{
    g3_caps caps = {.modems = G3_V17, .t6 = 1, .fine = 1, .widest = 2432, .limit = 2};
    g3_state state = G3_INIT(g3_state);
    FILE *out = argc == 2 ? fopen(argv[1], "ab") : NULL;
    if (out == NULL) return fprintf(stderr, "usage: answer OUT.pbm\n"), 2;
    g3_status status = g3_answerer_new(&terminal, &caps);
    while (status == G3_OK && state.end == 0 && fgets(line, sizeof line, stdin) != NULL) {
        status = take(&state);
        if (status == G3_OK || status == G3_NO_MEMORY || status == G3_FRAME_LOST) status = keep(out);
        if (status == G3_OK) status = say(&state);
        if (printf(state.end == 0 ? "wait\n" : "done\n") < 0 || fflush(stdout) != 0) break;
    }
    g3_terminal_free(&terminal);
    return fclose(out) == 0 && status == G3_OK && state.end == G3_END_NORMAL ? 0 : 1;
}
