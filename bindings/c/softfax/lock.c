#include "lock.h"
#include <errno.h>
#include <fcntl.h>
#include <poll.h>
#include <signal.h>
#include <stdio.h>
#include <stdlib.h>
#include <string.h>
#include <sys/file.h>
#include <sys/stat.h>
#include <unistd.h>

static const char FOLDER[] = "/var/lock";
enum { MOST_TRIES = 1000 }; /* a millisecond each */
enum { TAKEN, TRY_AGAIN, CANNOT, HELD, HELD_ALONE };

/* The number of a file on its disk; 0: there is none. */
static uint64_t file_of(const char *name)
{
    struct stat is;
    return stat(name, &is) == 0 ? is.st_ino : 0;
}

/* Writes this process's number into a new file; returns whether it could. */
static int write_number(const char *name)
{
    unlink(name); /* of a process of this number that is gone */
    int file = open(name, O_WRONLY | O_CREAT | O_EXCL, S_IRUSR | S_IWUSR | S_IRGRP | S_IROTH);
    if (file < 0) return 0;
    int is_written = dprintf(file, "%10ld\n", (long)getpid()) > 0;
    is_written &= close(file) == 0;
    if (!is_written) unlink(name);
    return is_written;
}

/* The process whose number a file has; 0: it has none. */
static long number_of(int file)
{
    char text[32] = "";
    ssize_t length = read(file, text, sizeof text - 1);
    return length > 0 ? strtol(text, NULL, 10) : 0;
}

/* The process that has the file of a name; 0: none. */
static long process_of(const char *name)
{
    int file = open(name, O_RDONLY);
    long process = file >= 0 ? number_of(file) : 0;
    if (file >= 0) close(file);
    return process;
}

/* Whether a process is gone. One with this process's own number is: it has written its lock in an earlier life of the machine. */
static int is_gone(long process)
{
    return process == (long)getpid() || (kill((pid_t)process, 0) != 0 && errno == ESRCH);
}

/* Looks whose an open lock file is, and puts the own file in its place if that process is gone. Who takes a file over holds it by flock, and
 * looks whether it still has the name: of two starters the second one finds the file of the first. */
static int take_over(int file, const char *own, const char *name, long *process)
{
    struct stat is;
    if (flock(file, LOCK_EX | LOCK_NB) != 0 || fstat(file, &is) != 0 || is.st_ino != file_of(name)) return TRY_AGAIN;
    *process = number_of(file);
    if (*process <= 0) return TRY_AGAIN; /* it may be being written */
    if (!is_gone(*process)) return HELD;
    return rename(own, name) == 0 ? TAKEN : CANNOT;
}

static int try_to_take(const char *own, const char *name, long *process)
{
    if (link(own, name) == 0) return TAKEN;
    if (errno != EEXIST) return CANNOT;
    int file = open(name, O_RDONLY);
    if (file < 0) return errno == ENOENT ? TRY_AGAIN : CANNOT;
    int came = take_over(file, own, name, process);
    close(file);
    return came;
}

/* Finds who has the tty, once its name is held: who has the device's name, which each starter takes last. Another starter that has the name
 * that it was given alone takes the device's too, or leaves. */
static int find_holder(const char *device, long *process)
{
    long has = process_of(device);
    if (has <= 0 || is_gone(has)) return HELD_ALONE;
    *process = has;
    return HELD;
}

/* Takes one name of a tty; returns TAKEN, HELD by a process, or CANNOT: the file can't be written or read. `device` is the name of the device,
 * which another program may leave out: then HELD comes late. */
static int take_name(lock *it, const char *name, const char *device, long *process)
{
    char own[40];
    int came = TRY_AGAIN;
    snprintf(own, sizeof own, "%s/LTMP.%ld", FOLDER, (long)getpid());
    if (!write_number(own)) return CANNOT;
    uint64_t number = file_of(own);
    for (int tries = 0; tries < MOST_TRIES && (came == TRY_AGAIN || came == HELD_ALONE); tries++) {
        if (tries > 0) poll(NULL, 0, 1);
        came = try_to_take(own, name, process);
        if (came == HELD) came = find_holder(device, process);
    }
    unlink(own);
    if (came != TAKEN) return came == HELD || came == HELD_ALONE ? HELD : CANNOT;
    strcpy(it->names[it->count], name);
    it->files[it->count++] = number;
    return TAKEN;
}

/* The name of the lock file of a tty's name; returns whether it fits. */
static int name_lock(const char *tty, char name[LOCK_ROOM])
{
    const char *slash = strrchr(tty, '/');
    int length = snprintf(name, LOCK_ROOM, "%s/LCK..%s", FOLDER, slash != NULL ? slash + 1 : tty);
    return length > 0 && length < LOCK_ROOM;
}

/* The process that has one of the files that were this one's; 0: none. A program with another way to take over may have done so. */
static long holder(const lock *it)
{
    for (int i = 0; i < it->count; i++) {
        long process = file_of(it->names[i]) == it->files[i] ? 0 : process_of(it->names[i]);
        if (process > 0) return process;
    }
    return 0;
}

long lock_take(lock *it, const char *tty)
{
    char names[LOCK_NAMES][LOCK_ROOM];
    char *device = realpath(tty, NULL);
    long process = 0;
    int came = TAKEN;
    it->count = 0;
    /* the device's name last: who has that one has the tty */
    int is_named = name_lock(tty, names[0]) && name_lock(device != NULL ? device : tty, names[1]);
    free(device);
    for (int i = 0; i < LOCK_NAMES && is_named && came == TAKEN; i++) {
        if (i == 0 || strcmp(names[0], names[1]) != 0) came = take_name(it, names[i], names[1], &process);
    }
    if (came == TAKEN) process = holder(it);
    if (came != TAKEN || process != 0) lock_leave(it);
    return came == CANNOT ? 0 : process; /* then TIOCEXCL has to do */
}

void lock_leave(lock *it)
{
    for (int i = 0; i < it->count; i++) {
        if (file_of(it->names[i]) == it->files[i]) unlink(it->names[i]);
    }
    it->count = 0;
}
