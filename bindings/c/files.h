/* Whole files, and the octets of a handle, for the examples. */
#ifndef FILES_H
#define FILES_H
#include "g3fax.h"
#include <stdint.h>
#include <stdio.h>
#include <stdlib.h>

enum { MOST_FILE = 1 << 28 }; /* octets: a device has no end */

/* The octets of a file, to be freed, with their number; NULL if it can't be read, or has more than MOST_FILE. */
static inline uint8_t *read_file(const char *name, size_t *length)
{
    FILE *file = fopen(name, "rb");
    size_t room = 1 << 16, got;
    uint8_t *octets = malloc(room), *more = octets;
    if (file == NULL) {
        free(octets);
        return NULL;
    }
    *length = 0;
    while (more != NULL && (got = fread(octets + *length, 1, room - *length, file)) > 0) {
        *length += got;
        if (*length > MOST_FILE) more = NULL;
        else if (*length == room && (more = realloc(octets, room *= 2)) != NULL) octets = more;
    }
    if (ferror(file)) more = NULL;
    fclose(file);
    if (more != NULL) return octets;
    free(octets);
    return NULL;
}

/* Whether a file was written with these octets. */
static inline int write_file(const char *name, const uint8_t *octets, size_t length)
{
    FILE *file = fopen(name, "wb");
    if (file == NULL) return 0;
    int whole = fwrite(octets, 1, length, file) == length;
    return fclose(file) == 0 && whole;
}

/* Whether a file of this name has what was written to another one, which is closed. It is opened now, when all was read: so it may be what
 * was read, and what is there stays where nothing comes in its place. */
static inline int give_file(FILE *from, const char *name)
{
    uint8_t octets[4096];
    size_t length = 0;
    FILE *file = fflush(from) == 0 ? fopen(name, "wb") : NULL;
    int whole = file != NULL;
    rewind(from);
    while (whole && (length = fread(octets, 1, sizeof octets, from)) > 0) whole = fwrite(octets, 1, length, file) == length;
    whole = whole && !ferror(from);
    if (file != NULL) whole = fclose(file) == 0 && whole;
    fclose(from);
    return whole;
}

/* Copies the octets of a handle, however many, into memory that the caller frees. The handle is freed in any case. */
static inline g3_status take_octets(g3_octets *from, uint8_t **octets, uint64_t *length)
{
    g3_status status = g3_octets_len(from, length);
    *octets = status == G3_OK ? malloc(*length + 1) : NULL;
    if (status == G3_OK) status = *octets == NULL ? G3_NO_MEMORY : g3_octets_copy(from, *octets, *length, length);
    g3_octets_free(from);
    return status;
}

/* Writes a page as a raw PBM file. If the file can't be written, the reason is printed, and the status is G3_NOTHING. */
static inline g3_status save_page(const g3_page *page, const char *name)
{
    g3_octets text = G3_EMPTY;
    const uint8_t *octets = NULL;
    uint64_t length = 0;
    g3_status status = g3_page_write_pbm(page, &text);
    if (status == G3_OK) status = g3_octets_data(&text, &octets, &length);
    if (status == G3_OK && !write_file(name, octets, length)) perror(name), status = G3_NOTHING;
    g3_octets_free(&text);
    return status;
}
#endif
