/* lock-test ROUNDS FOLDER: so many races of six starters, or two, for a tty, whose lock files are away or are of a process that is gone. They
 * give the tty by its own name and by two links. One has to have it, the others are to be told of that one, and the files are away at last.
 * Status 1: it isn't so. FOLDER is for the names of the tty. */
#include "lock.h"
#include <stdio.h>
#include <stdlib.h>
#include <string.h>
#include <sys/wait.h>
#include <unistd.h>

enum { STARTERS = 6, NAMES = 3, ROOM = 200 };

typedef struct report {
    long process, told; /* who starts, and of whom it is told; 0: of none, so it has the tty */
} report;

static char ttys[NAMES][ROOM], locks[NAMES][ROOM];

/* Names of a tty: a file, and two links to it. */
static int make_names(const char *folder)
{
    for (int i = 0; i < NAMES; i++) {
        snprintf(ttys[i], ROOM, "%s/tty%ld-%d", folder, (long)getpid(), i);
        snprintf(locks[i], ROOM, "/var/lock/LCK..tty%ld-%d", (long)getpid(), i);
    }
    FILE *file = fopen(ttys[0], "w");
    return file != NULL && fclose(file) == 0 && symlink(ttys[0], ttys[1]) == 0 && symlink(ttys[0], ttys[2]) == 0;
}

static int leave_lock(const char *name, long process)
{
    FILE *file = fopen(name, "w");
    return file != NULL && fprintf(file, "%10ld\n", process) > 0 && fclose(file) == 0;
}

/* A starter, which begins when the pipe `go` ends. If it has the tty, it leaves it when the pipe `end` does. */
static int start(const char *tty, int go, int said, int end)
{
    lock it;
    char octet;
    report out = {(long)getpid(), 0};
    int has_begun = read(go, &octet, 1) == 0;
    out.told = lock_take(&it, tty);
    int has_said = write(said, &out, sizeof out) == sizeof out;
    if (out.told == 0) has_said &= read(end, &octet, 1) == 0;
    if (out.told == 0) lock_leave(&it);
    return has_begun && has_said;
}

/* Whether one of the starters has the tty, and the others are told of it. */
static int is_right(int said, int count)
{
    report all[STARTERS];
    long winner = 0;
    int winners = 0, others = 0;
    for (int i = 0; i < count; i++) {
        if (read(said, &all[i], sizeof all[i]) != sizeof all[i]) return 0;
        if (all[i].told == 0) winners++, winner = all[i].process;
    }
    for (int i = 0; i < count; i++) others += all[i].told == winner;
    if (winners == 1 && others == count - 1) return 1;
    for (int i = 0; i < count; i++) fprintf(stderr, "process %ld is told of %ld\n", all[i].process, all[i].told);
    return 0;
}

/* A race of so many, which give the tty by these names in turn. */
static int race(int count, const int *names)
{
    int go[2], said[2], end[2], ends_well = 1;
    if (pipe(go) != 0 || pipe(said) != 0 || pipe(end) != 0) return 0;
    for (int i = 0; i < count; i++) {
        if (fork() != 0) continue;
        close(go[1]);
        close(end[1]);
        _exit(start(ttys[names[i % NAMES]], go[0], said[1], end[0]) ? 0 : 1);
    }
    close(go[1]);
    int well = is_right(said[0], count);
    close(end[1]);
    for (int i = 0; i < count; i++) {
        int status = 0;
        ends_well &= wait(&status) > 0 && status == 0;
    }
    for (int i = 0; i < 2; i++) close(said[i]);
    close(go[0]);
    close(end[0]);
    for (int i = 0; i < count; i++) ends_well &= access(locks[names[i % NAMES]], F_OK) != 0;
    return well && ends_well;
}

int main(int count, char **words)
{
    static const int NAMED[][NAMES] = {{0, 1, 2}, {1, 1, 0}, {1, 2, 1}, {0, 1, 0}};
    const long gone = 99999999;
    int rounds = count == 3 ? atoi(words[1]) : 0;
    if (rounds < 1 || !make_names(words[2])) return 2;
    if (!leave_lock(locks[0], gone)) {
        printf("softfax: locks aren't tried, since /var/lock can't be written\n");
        return 0;
    }
    for (int i = 0; i < rounds; i++) {
        int starters = i % 3 == 0 ? 2 : STARTERS;
        for (int name = 0; name < NAMES; name++) {
            if (i % 2 == 0) leave_lock(locks[name], gone);
            else unlink(locks[name]);
        }
        if (!race(starters, NAMED[i / 2 % 4])) return fprintf(stderr, "lock-test: wrong in race %d, of %d starters\n", i, starters), 1;
    }
    for (int i = 0; i < NAMES; i++) {
        unlink(ttys[i]);
        unlink(locks[i]);
    }
    printf("softfax: of 2 or 6 starters one has the tty, and the others are told so, in %d races\n", rounds);
    return 0;
}
