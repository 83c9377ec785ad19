/* Linked into softfax for tests, with --wrap of malloc, realloc, free, fsync and link. The growth of memory whose number is in REFUSED is
 * refused, and the call of fsync or link whose number is in FAILS fails. The file that GROWTHS names gets how many growths there were; the
 * one that KEPT names gets a line for each fsync and link. With NO_LINKS each link fails as on FAT. */
#include "../../tests/heap.h"
#include <errno.h>
#include <stdio.h>
#include <stdlib.h>
#include <unistd.h>

int __real_fsync(int file);
int __real_link(const char *from, const char *to);

static unsigned long kept, fails; /* calls so far, and which of them fails */

/* Writes a line of what is done; returns whether it is to be done. */
static int note(const char *what, const char *name)
{
    FILE *file = getenv("KEPT") != NULL ? fopen(getenv("KEPT"), "a") : NULL;
    if (file != NULL) fprintf(file, "%s %s\n", what, name);
    if (file != NULL) fclose(file);
    errno = EIO;
    return ++kept != fails;
}

int __wrap_fsync(int file)
{
    char link[40], name[4096];
    snprintf(link, sizeof link, "/proc/self/fd/%d", file);
    ssize_t length = readlink(link, name, sizeof name - 1);
    name[length > 0 ? length : 0] = 0;
    return note("syncs", name) ? __real_fsync(file) : -1;
}

int __wrap_link(const char *from, const char *to)
{
    if (getenv("NO_LINKS") != NULL) return errno = EPERM, -1; /* as on FAT */
    return note("links", to) ? __real_link(from, to) : -1;
}

static void write_growths(void)
{
    FILE *file = fopen(getenv("GROWTHS"), "w");
    if (file == NULL) return;
    fprintf(file, "%lu\n", grown);
    fclose(file);
}

__attribute__((constructor)) static void begin(void)
{
    const char *number = getenv("REFUSED"), *call = getenv("FAILS");
    if (number != NULL) refused = strtoul(number, NULL, 10);
    if (call != NULL) fails = strtoul(call, NULL, 10);
    if (getenv("GROWTHS") != NULL) atexit(write_growths);
}
