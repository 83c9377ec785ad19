/* Loaded before the C library (LD_PRELOAD), it writes down each call of a program that changes a file or writes, and makes one of them fail:
 *
 *     DISK_LOG=FILE        a line a call: its name, its file or descriptor's file, and what it returned
 *     DISK_AT=N            the Nth of these calls is DISK_DOES: `kill` (the process is killed before it), `after` (right after it), `fail`
 *                          (it does nothing, and says that the disk is broken)
 *     DISK_SYNCS=none      fsync and fdatasync do nothing, and say that all is well, without a line
 *     DISK_LINK=ERROR      each link fails with this number of an error, as on a file system without links
 *     DISK_FOLDER=ERROR    each fsync of a folder fails with this number
 *     DISK_LOCK=ERROR      each flock fails with this number
 *     DISK_STOPS=CALL      the first such call, `link`, `rename`, `sync` or `unlink`, does nothing and says that a signal interrupted it
 *     DISK_SLOW=CALL       50 ms pass before each such call
 */
#define _GNU_SOURCE
#include <dlfcn.h>
#include <errno.h>
#include <fcntl.h>
#include <signal.h>
#include <stdarg.h>
#include <stdio.h>
#include <stdlib.h>
#include <string.h>
#include <sys/file.h>
#include <sys/stat.h>
#include <sys/types.h>
#include <unistd.h>

#define REAL(name) ((__typeof__(&name))dlsym(RTLD_NEXT, #name))

static int calls;

static void note(const char *call, const char *what, long result)
{
    const char *log = getenv("DISK_LOG");
    char line[8192];
    int length = snprintf(line, sizeof line, "%s %s %ld\n", call, what, result), saved = errno;
    int fd = log != NULL ? REAL(open)(log, O_WRONLY | O_CREAT | O_APPEND, 0600) : -1;
    if (fd >= 0 && REAL(write)(fd, line, (size_t)length) == length) REAL(close)(fd);
    errno = saved;
}

/* Returns whether this call is the one that fails; kills the process where it is the one before which it dies. */
static int is_failing(int *is_last)
{
    const char *at = getenv("DISK_AT"), *does = getenv("DISK_DOES");
    *is_last = 0;
    if (at == NULL || does == NULL || ++calls != atoi(at)) return 0;
    if (strcmp(does, "kill") == 0) raise(SIGKILL);
    *is_last = strcmp(does, "after") == 0;
    errno = EIO;
    return strcmp(does, "fail") == 0;
}

static const char *name_of(int fd)
{
    static char name[4096];
    char link[64];
    snprintf(link, sizeof link, "/proc/self/fd/%d", fd);
    ssize_t length = readlink(link, name, sizeof name - 1);
    name[length < 0 ? 0 : length] = '\0';
    return fd == 1 ? "out" : fd == 2 ? "error" : name;
}

static void wait_before(const char *call)
{
    const char *slow = getenv("DISK_SLOW");
    if (slow != NULL && strcmp(slow, call) == 0) usleep(50000);
}

/* Returns whether a call of this name is the one that a signal interrupts: the first one. */
static int is_stopped(const char *call)
{
    static int was;
    const char *stops = getenv("DISK_STOPS");
    if (stops == NULL || was || strcmp(stops, call) != 0) return 0;
    was = 1;
    errno = EINTR;
    return 1;
}

/* Returns whether the setting has an error's number, which is the error then. */
static int is_set(const char *setting)
{
    const char *number = getenv(setting);
    if (number == NULL) return 0;
    errno = atoi(number);
    return 1;
}

static int is_folder(int fd)
{
    struct stat found;
    return fstat(fd, &found) == 0 && S_ISDIR(found.st_mode);
}

#define DO(call, what, real)                                   \
    do {                                                       \
        int is_last, fails;                                    \
        wait_before(call);                                     \
        fails = is_failing(&is_last);                          \
        fails = fails || is_stopped(call);                     \
        long result = fails ? -1 : (long)(real);               \
        note(call, what, result);                              \
        if (is_last) raise(SIGKILL);                           \
        return (__typeof__(real))result;                       \
    } while (0)

int open(const char *path, int flags, ...)
{
    va_list given;
    va_start(given, flags);
    mode_t mode = (flags & O_CREAT) != 0 ? va_arg(given, mode_t) : 0;
    va_end(given);
    if ((flags & O_CREAT) == 0) return REAL(open)(path, flags, mode);
    DO((flags & O_EXCL) != 0 ? "new" : "create", path, REAL(open)(path, flags, mode));
}

ssize_t write(int fd, const void *octets, size_t length)
{
    char first[16];
    memset(first, 0, sizeof first);
    memcpy(first, octets, length < 5 ? length : 5);
    if (fd == 1 && strncmp(first, "tx", 2) != 0) return REAL(write)(fd, octets, length);
    DO("write", name_of(fd), REAL(write)(fd, octets, length));
}

int fsync(int fd)
{
    if (getenv("DISK_SYNCS") != NULL) return 0;
    DO("sync", name_of(fd), is_folder(fd) && is_set("DISK_FOLDER") ? -1 : REAL(fsync)(fd));
}

int fdatasync(int fd)
{
    if (getenv("DISK_SYNCS") != NULL) return 0;
    DO("sync", name_of(fd), REAL(fdatasync)(fd));
}

int rename(const char *from, const char *to)
{
    DO("rename", to, REAL(rename)(from, to));
}

int link(const char *from, const char *to)
{
    DO("link", to, is_set("DISK_LINK") ? -1 : REAL(link)(from, to));
}

int unlink(const char *path)
{
    DO("unlink", path, REAL(unlink)(path));
}

int flock(int fd, int how)
{
    return is_set("DISK_LOCK") ? -1 : REAL(flock)(fd, how);
}
