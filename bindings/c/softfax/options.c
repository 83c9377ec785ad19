#include "options.h"
#include "g3fax.h"
#include "header.h"
#include "identity.h"
#include "told.h"
#include <stdio.h>
#include <stdlib.h>
#include <string.h>

#define MOST_LIMIT UINT64_C(1000000000000)
enum { MOST_TEXT = 60 }; /* characters of a number that is dialled, or a command of the set-up */

void options_usage(void)
{
    fprintf(stderr,
        "usage: softfax --call PAGE.pbm.. | --answer DIR   --rx IN --tx OUT [--wav FILE]\n"
        "       softfax --tty DEVICE --call NUMBER PAGE.pbm.. | --answer DIR [--rings N] [--calls N|forever]\n"
        "       [--wait-tty] [--init COMMAND|NAME].. [--xon] [--trace-at FILE]\n"
        "  both [--modems v17|v29|v27ter] [--code mmr|mh] [--fine] [--square] [--no-ctc] [--id NAME] [--json] [--tell]\n"
        "       [--header TEXT [--header-font FILE.hex]] (a caller: a line at the head of each page)\n"
        "       [--most-seconds N] (14400 if not given, four hours; 0: none) [--most-pages N] [--most-octets N]\n");
}

/* The place of a word in a list that ends with NULL, from 1; 0 if it isn't there. */
static uint32_t place_of(const char *word, const char *const *list)
{
    for (uint32_t i = 0; list[i] != NULL; i++) {
        if (strcmp(word, list[i]) == 0) return i + 1;
    }
    return 0;
}

/* Reads a number up to `most`; returns whether it is one. */
static int read_number(const char *word, uint64_t most, uint64_t *out)
{
    size_t length = strlen(word);
    if (length == 0 || length > 18 || strspn(word, "0123456789") != length) return 0;
    *out = strtoull(word, NULL, 10);
    return *out <= most;
}

/* Reads a number from 1 to `most`; 0 if it is none. */
static int number_of(const char *word, int most)
{
    uint64_t number = 0;
    return read_number(word, (uint64_t)most, &number) ? (int)number : 0;
}

/* Reads the longest time of a call. Where one call is awaited, one that is given limits the wait too. */
static int read_seconds(options *out, const char *value)
{
    uint64_t seconds = 0;
    if (!read_number(value, 1000000, &seconds)) return 0;
    out->most_seconds = (int)seconds;
    out->limits_wait = seconds > 0;
    return 1;
}

/* Reads how many calls are answered. */
static int read_calls(options *out, const char *value)
{
    out->most_calls = strcmp(value, "forever") == 0 ? FOREVER : number_of(value, 1000000000);
    return out->most_calls != 0;
}

/* Returns whether a text can be written to a modem as it is. */
static int is_command(const char *text)
{
    size_t length = strlen(text);
    for (size_t i = 0; i < length; i++) {
        if (text[i] < ' ' || text[i] > '~') return 0;
    }
    return length > 0 && length <= MOST_TEXT;
}

/* Returns whether a text is a number to dial, and not a command beside it (V.250, 6.3.1). That it isn't is told. */
static int is_number(const char *text)
{
    static const char ALPHABET[] = "0123456789*#+ABCD,W@!()- ";
    size_t length = strlen(text);
    if (length > 0 && length <= MOST_TEXT && strspn(text, ALPHABET) == length) return 1;
    told_fault("the number", "it is not of 1 to 60 digits, spaces and * # + A B C D , W @ ! ( ) -");
    return 0;
}

/* Reads an option that is a text. */
static int read_text(options *out, const char *name, const char *value)
{
    const struct { const char *name; const char **to; } TEXTS[] = {
        {"--rx", &out->rx}, {"--tx", &out->tx}, {"--wav", &out->wav}, {"--answer", &out->folder}, {"--tty", &out->tty},
        {"--trace-at", &out->trace}, {"--id", &out->identity}, {"--header", &out->header}, {"--header-font", &out->font}};
    for (size_t i = 0; i < sizeof TEXTS / sizeof TEXTS[0]; i++) {
        if (strcmp(name, TEXTS[i].name) == 0) return *TEXTS[i].to = value, 1;
    }
    return 0;
}

/* Adds a command of the set-up, or a name. */
static int add_init(options *out, const char *text)
{
    if (out->init_count == MOST_INITS || !is_command(text)) return 0;
    out->inits[out->init_count++] = text;
    return 1;
}

/* Reads an option that has a value; returns whether it is one. */
static int read_value(options *out, const char *name, const char *value)
{
    static const char *const MODEMS[] = {[G3_V27TER - 1] = "v27ter", [G3_V29 - 1] = "v29", [G3_V17 - 1] = "v17", NULL};
    static const char *const CODES[] = {[G3_MH - 1] = "mh", [G3_MMR - 1] = "mmr", NULL};
    if (strcmp(name, "--modems") == 0) return (out->modems = place_of(value, MODEMS)) != 0;
    if (strcmp(name, "--code") == 0) return (out->coding = place_of(value, CODES)) != 0;
    if (strcmp(name, "--rings") == 0) return (out->rings = number_of(value, 100)) != 0;
    if (strcmp(name, "--calls") == 0) return read_calls(out, value);
    if (strcmp(name, "--most-seconds") == 0) return read_seconds(out, value);
    if (strcmp(name, "--most-pages") == 0) return read_number(value, MOST_LIMIT, &out->most_pages) && out->most_pages > 0;
    if (strcmp(name, "--most-octets") == 0) return read_number(value, MOST_LIMIT, &out->most_octets) && out->most_octets > 0;
    if (strcmp(name, "--init") == 0) return add_init(out, value);
    return read_text(out, name, value);
}

/* Reads an option without a value; returns whether it is one. */
static int read_flag(options *out, const char *name)
{
    const struct { const char *name; int *to; } FLAGS[] = {
        {"--call", &out->calls}, {"--fine", &out->fine}, {"--square", &out->square}, {"--no-ctc", &out->refuses_ctc},
        {"--json", &out->json}, {"--tell", &out->tells}, {"--xon", &out->xon}, {"--wait-tty", &out->waits_for_tty}};
    for (size_t i = 0; i < sizeof FLAGS / sizeof FLAGS[0]; i++) {
        if (strcmp(name, FLAGS[i].name) == 0) return *FLAGS[i].to = 1;
    }
    return strcmp(name, "--ctc") == 0; /* it is so without it */
}

/* Over a modem the first word of a caller is the number. */
static void take_number(options *out)
{
    if (out->tty == NULL || !out->calls || out->count == 0) return;
    out->number = out->pages[0];
    out->count--;
    memmove(out->pages, out->pages + 1, (size_t)out->count * sizeof out->pages[0]);
}

/* Returns whether the words fit together. */
static int is_command_line(const options *it)
{
    int has_streams = it->rx != NULL && it->tx != NULL, has_stream = it->rx != NULL || it->tx != NULL || it->wav != NULL;
    int is_of_tty = it->init_count > 0 || it->trace != NULL || it->xon || it->most_calls != 0 || it->waits_for_tty;
    if (it->calls == it->answers || it->calls != (it->count > 0)) return 0;
    if (it->calls && (it->most_calls != 0 || it->most_pages > 0 || it->most_octets > 0)) return 0;
    if (it->identity != NULL && !identity_is(it->identity)) return 0;
    if (it->header == NULL ? it->font != NULL : !it->calls || !header_is_text(it->header)) return 0;
    if (it->tty == NULL) return has_streams && !is_of_tty;
    if (it->calls && (it->number == NULL || !is_number(it->number))) return 0;
    return !has_stream;
}

int options_read(options *out, int argc, char **argv)
{
    for (int i = 1; i < argc; i++) {
        if (read_flag(out, argv[i])) continue;
        if (argv[i][0] != '-') {
            if (out->count == MOST_FILES) return 0;
            out->pages[out->count++] = argv[i];
        } else if (i + 1 == argc || !read_value(out, argv[i], argv[i + 1])) return 0;
        else i++;
    }
    out->answers = out->folder != NULL;
    if (out->most_calls != 0) out->limits_wait = 0;
    take_number(out);
    return is_command_line(out);
}
