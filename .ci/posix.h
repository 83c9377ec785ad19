/* What bindings/include lacks of the headers of C and POSIX that softfax on a pty wants, as the C library of x86-64 Linux has it.
 * .ci/softfax.sh has it included by each of those headers, where the kit's clang compiles. */
#ifndef KIT_POSIX_H
#define KIT_POSIX_H
#include <stddef.h>
#include <stdint.h>

/* errno.h */
int *__errno_location(void);
#define errno (*__errno_location())
enum { EPERM = 1, ENOSYS = 38, EOPNOTSUPP = 95, ENOENT = 2, ESRCH = 3, EINTR = 4, EIO = 5, ENXIO = 6, EAGAIN = 11, EEXIST = 17, ENOTDIR = 20, EPIPE = 32, ENAMETOOLONG = 36 };

/* stdarg.h */
typedef __builtin_va_list va_list;
#define va_start(list, last) __builtin_va_start(list, last)
#define va_end(list) __builtin_va_end(list)

/* stdio.h, stdlib.h, string.h, strings.h */
struct kit_file;
int vsnprintf(char *to, size_t room, const char *format, va_list values) __attribute__((format(printf, 3, 0)));
int dprintf(int file, const char *format, ...) __attribute__((format(printf, 2, 3)));
struct kit_file *fdopen(int file, const char *mode);
char *realpath(const char *name, char *to);
int posix_openpt(int flags);
int grantpt(int master);
int unlockpt(int master);
char *ptsname(int master);
char *strerror(int error);
char *strcpy(char *to, const char *from);
char *strchr(const char *text, int octet);
char *strrchr(const char *text, int octet);
char *strstr(const char *text, const char *part);
int strncasecmp(const char *a, const char *b, size_t length);
size_t strspn(const char *text, const char *alphabet);
long strtol(const char *text, char **end, int base);
unsigned long long strtoull(const char *text, char **end, int base);
#define UINT64_C(number) number##UL

/* fcntl.h, unistd.h, sys/file.h, sys/stat.h, sys/ioctl.h, sys/wait.h */
typedef int pid_t;
typedef unsigned mode_t;
typedef long ssize_t;
enum { LOCK_EX = 2, LOCK_NB = 4, STDERR_FILENO = 2, F_OK = 0, F_SETFL = 4, TIOCEXCL = 0x540c, TIOCNXCL = 0x540d, TIOCOUTQ = 0x5411, FIONREAD = 0x541b };
enum { O_RDONLY = 0, O_WRONLY = 1, O_RDWR = 2, O_CREAT = 0100, O_EXCL = 0200, O_NOCTTY = 0400, O_TRUNC = 01000, O_NONBLOCK = 04000,
    O_DIRECTORY = 0200000 };
enum { S_IRUSR = 0400, S_IWUSR = 0200, S_IXUSR = 0100, S_IRGRP = 040, S_IROTH = 04 };
struct stat { uint64_t st_dev, st_ino, st_nlink; mode_t st_mode; uint32_t more; uint64_t rest[14]; };
#define S_ISDIR(mode) (((mode) & 0170000) == 0040000)
int open(const char *name, int flags, ...);
int fcntl(int file, int what, ...);
int ioctl(int file, unsigned long what, ...);
int close(int file);
ssize_t read(int file, void *to, size_t room);
ssize_t write(int file, const void *from, size_t length);
int fsync(int file);
int link(const char *from, const char *to);
int unlink(const char *name);
int access(const char *name, int how);
int mkdir(const char *name, mode_t mode);
int rmdir(const char *name);
int stat(const char *name, struct stat *out);
int fstat(int file, struct stat *out);
int flock(int file, int how);
int rename(const char *from, const char *to);
int symlink(const char *to, const char *name);
int dup2(int from, int to);
ssize_t readlink(const char *name, char *to, size_t room);
pid_t getpid(void);
pid_t fork(void);
pid_t wait(int *status);
int pipe(int files[2]);
_Noreturn void _exit(int status);

/* poll.h, sched.h, time.h */
enum { POLLIN = 1, POLLOUT = 4, CLOCK_MONOTONIC = 1 };
struct pollfd { int fd; short events, revents; };
struct timespec { long tv_sec, tv_nsec; };
typedef long time_t;
struct tm { int tm_sec, tm_min, tm_hour, tm_mday, tm_mon, tm_year, tm_wday, tm_yday, tm_isdst; long tm_gmtoff; const char *tm_zone; };
time_t time(time_t *out);
struct tm *localtime_r(const time_t *when, struct tm *out);
size_t strftime(char *to, size_t room, const char *format, const struct tm *when);
int poll(struct pollfd *files, unsigned long count, int millis);
int sched_yield(void);
int clock_gettime(int clock, struct timespec *out);

/* signal.h */
typedef int sig_atomic_t;
typedef struct { uint64_t bits[16]; } sigset_t;
struct sigaction { void (*sa_handler)(int number); sigset_t sa_mask; int sa_flags; void (*sa_restorer)(void); };
enum { SIGHUP = 1, SIGINT = 2, SIGUSR1 = 10, SIGPIPE = 13, SIGTERM = 15, SIGXFSZ = 25 };
#define SIG_IGN ((void (*)(int))1)
int kill(pid_t process, int number);
int sigaction(int number, const struct sigaction *to, struct sigaction *was);
int sigfillset(sigset_t *out);

/* termios.h */
typedef unsigned tcflag_t;
struct termios { tcflag_t c_iflag, c_oflag, c_cflag, c_lflag; uint8_t c_line, c_cc[32]; unsigned c_ispeed, c_ospeed; };
enum { IGNBRK = 1, IXON = 02000, CS8 = 060, CREAD = 0200, HUPCL = 02000, CLOCAL = 04000, VTIME = 5, VMIN = 6, B115200 = 010002,
    TCSANOW = 0, TCIOFLUSH = 2 };
#define CRTSCTS 020000000000u
int tcgetattr(int tty, struct termios *out);
int tcsetattr(int tty, int when, const struct termios *to);
int tcflush(int tty, int what);
int cfsetispeed(struct termios *to, unsigned speed);
int cfsetospeed(struct termios *to, unsigned speed);
#endif
