/* Loaded before the C library (LD_PRELOAD), it refuses one growth of memory:
 *
 *     MEMORY_AT=N          the Nth call that asks for memory fails
 *     MEMORY_COUNT=FILE    gets the number of such calls at the end
 *     MEMORY_FROM=TEXT     calls count from the program's write that begins with this text up to its next write; without it, all do
 */
#define _GNU_SOURCE
#include <errno.h>
#include <stdio.h>
#include <stdlib.h>
#include <string.h>
#include <sys/syscall.h>
#include <unistd.h>

extern void *__libc_malloc(size_t);
extern void *__libc_calloc(size_t, size_t);
extern void *__libc_realloc(void *, size_t);
extern void *__libc_memalign(size_t, size_t);

static int calls, is_between;

static int is_refused(void)
{
    const char *at = getenv("MEMORY_AT");
    if (!is_between && getenv("MEMORY_FROM") != NULL) return 0;
    calls++;
    errno = ENOMEM;
    return at != NULL && calls == atoi(at);
}

void *malloc(size_t size) { return is_refused() ? NULL : __libc_malloc(size); }
void *calloc(size_t count, size_t size) { return is_refused() ? NULL : __libc_calloc(count, size); }
void *realloc(void *old, size_t size) { return is_refused() ? NULL : __libc_realloc(old, size); }
void *aligned_alloc(size_t align, size_t size) { return is_refused() ? NULL : __libc_memalign(align, size); }
int posix_memalign(void **made, size_t align, size_t size)
{
    *made = is_refused() ? NULL : __libc_memalign(align, size);
    return *made == NULL ? ENOMEM : 0;
}

ssize_t write(int file, const void *octets, size_t size)
{
    const char *from = getenv("MEMORY_FROM");
    is_between = from != NULL && size >= strlen(from) && memcmp(octets, from, strlen(from)) == 0;
    return syscall(SYS_write, file, octets, size);
}

__attribute__((destructor)) static void tell(void)
{
    const char *name = getenv("MEMORY_COUNT");
    FILE *file = name != NULL ? fopen(name, "w") : NULL;
    if (file == NULL) return;
    fprintf(file, "%d\n", calls);
    fclose(file);
}
