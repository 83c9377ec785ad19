/* Loaded before the C library (LD_PRELOAD), it writes down each call of a program that changes a file or writes, and makes one of them fail:
 *
 *     CALLS_LOG=FILE       a line a call: its name, its file and what it returned, with a tab between them
 *     CALLS_AT=N           the Nth of these calls does nothing, and fails with the error CALLS_ERROR, a number of errno.h; a write with
 *                          CALLS_ERROR=0 takes half of its octets and says so, with CALLS_ERROR=-2 none and says all; and a close that
 *                          fails has closed the file
 *     CALLS_FULL=ERROR     from then on the disk is full, or broken: no file but the first three takes an octet, for this error
 *     CALLS_READS=1        the calls that read a file, or look for one, are among them
 */
#define _GNU_SOURCE
#include <dlfcn.h>
#include <errno.h>
#include <fcntl.h>
#include <stdarg.h>
#include <stdio.h>
#include <stdlib.h>
#include <sys/file.h>
#include <sys/stat.h>
#include <sys/types.h>
#include <unistd.h>

#define REAL(name) ((__typeof__(&name))dlsym(RTLD_NEXT, #name))

static int calls;
static int is_full;

static void note(const char *call, const char *what, long result)
{
    const char *log = getenv("CALLS_LOG");
    char line[8192];
    int length = snprintf(line, sizeof line, "%s\t%s\t%ld\n", call, what, result), saved = errno;
    int fd = log != NULL ? REAL(open)(log, O_WRONLY | O_CREAT | O_APPEND, 0600) : -1;
    if (fd >= 0 && REAL(write)(fd, line, (size_t)length) != length) abort();
    if (fd >= 0) REAL(close)(fd);
    errno = saved;
}

/* Returns the error of this call, -1 if it doesn't fail. */
static int error_of_this(void)
{
    const char *at = getenv("CALLS_AT"), *error = getenv("CALLS_ERROR");
    return ++calls == (at != NULL ? atoi(at) : 0) && error != NULL ? atoi(error) : -1;
}

static const char *name_of(int fd)
{
    static char name[4096];
    char link[64];
    snprintf(link, sizeof link, "/proc/self/fd/%d", fd);
    ssize_t length = REAL(readlink)(link, name, sizeof name - 1);
    name[length < 0 ? 0 : length] = '\0';
    return fd == 0 ? "in" : fd == 1 ? "out" : fd == 2 ? "error" : name;
}

#define DO(call, what, real)                                   \
    do {                                                       \
        const char *name = (what);                             \
        int error = error_of_this();                           \
        if (error > 0) errno = error;                          \
        long result = error > 0 ? -1 : (long)(real);           \
        note(call, name, result);                              \
        return (__typeof__(real))result;                       \
    } while (0)

#define READS (getenv("CALLS_READS") != NULL)

int open(const char *path, int flags, ...)
{
    va_list given;
    va_start(given, flags);
    mode_t mode = (flags & O_CREAT) != 0 ? va_arg(given, mode_t) : 0;
    va_end(given);
    int writes = (flags & (O_CREAT | O_TRUNC)) != 0 || (flags & O_ACCMODE) != O_RDONLY;
    if (!writes && !READS) return REAL(open)(path, flags, mode);
    DO(writes ? (flags & O_EXCL) != 0 ? "new" : "open" : "look", path, REAL(open)(path, flags, mode));
}

ssize_t write(int fd, const void *octets, size_t length)
{
    const char *at = getenv("CALLS_AT"), *error = getenv("CALLS_ERROR");
    if (is_full && fd > 2) {
        errno = atoi(getenv("CALLS_FULL"));
        return -1;
    }
    if (at != NULL && error != NULL && calls + 1 == atoi(at)) {
        if (atoi(error) == 0) length = (length + 1) / 2;
        if (atoi(error) == -2) return ++calls, (ssize_t)length;
        is_full = getenv("CALLS_FULL") != NULL;
    }
    DO("write", name_of(fd), REAL(write)(fd, octets, length));
}

int close(int fd)
{
    int flags = fcntl(fd, F_GETFL);
    if (flags < 0 || (flags & O_ACCMODE) == O_RDONLY) return REAL(close)(fd);
    const char *name = name_of(fd);
    int error = error_of_this(), result = REAL(close)(fd);
    note("close", name, error > 0 ? -1 : result);
    if (error > 0) errno = error;
    return error > 0 ? -1 : result;
}

int fsync(int fd)
{
    DO("sync", name_of(fd), REAL(fsync)(fd));
}

int fdatasync(int fd)
{
    DO("sync", name_of(fd), REAL(fdatasync)(fd));
}

int fchmod(int fd, mode_t mode)
{
    DO("chmod", name_of(fd), REAL(fchmod)(fd, mode));
}

int ftruncate(int fd, off_t length)
{
    DO("truncate", name_of(fd), REAL(ftruncate)(fd, length));
}

int flock(int fd, int operation)
{
    DO("lock", name_of(fd), REAL(flock)(fd, operation));
}

int link(const char *from, const char *to)
{
    DO("link", to, REAL(link)(from, to));
}

int rename(const char *from, const char *to)
{
    DO("rename", to, REAL(rename)(from, to));
}

int unlink(const char *path)
{
    DO("unlink", path, REAL(unlink)(path));
}

ssize_t read(int fd, void *octets, size_t length)
{
    if (!READS) return REAL(read)(fd, octets, length);
    DO("read", name_of(fd), REAL(read)(fd, octets, length));
}

off_t lseek(int fd, off_t place, int whence)
{
    if (!READS) return REAL(lseek)(fd, place, whence);
    DO("seek", name_of(fd), REAL(lseek)(fd, place, whence));
}

int statx(int folder, const char *restrict path, int flags, unsigned int mask, struct statx *restrict found)
{
    if (!READS) return REAL(statx)(folder, path, flags, mask, found);
    DO("stat", path[0] != '\0' ? path : name_of(folder), REAL(statx)(folder, path, flags, mask, found));
}

ssize_t readlink(const char *restrict path, char *restrict into, size_t length)
{
    if (!READS) return REAL(readlink)(path, into, length);
    DO("readlink", path, REAL(readlink)(path, into, length));
}
