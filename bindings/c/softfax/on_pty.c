#include "on_pty.h"
#include "files.h"
#include "pty.h"
#include "tty.h"
#include <poll.h>
#include <string.h>
#include <sys/stat.h>
#include <unistd.h>

enum { FIRST_RING = 200, RINGS = 6000, MOST_NAME = 240 };

typedef struct on_pty {
    const trial *kind;
    const behind_way *way;
    const char *folder;
    int64_t now;
    int was_on, is_fine;           /* was_on: it has dialled, or answered; is_fine: nothing of the pty has failed */
    pty pty;
    char pages[MOST_PAGES][MOST_NAME];
    char kept[MOST_NAME];          /* the folder of what is kept */
    options given;
    call call;
    tty_call *tty;                 /* NULL once it is closed */
    soft *soft;
} on_pty;

/* The modem's side. What the program writes after the modem was told of its end is lost. */
static int modem_read(void *user, uint8_t *octets, int room)
{
    on_pty *it = user;
    if (it->tty == NULL) return 0;
    int got = pty_read(&it->pty, tty_written(it->tty), octets, room);
    it->is_fine &= got >= 0;
    return got;
}

static int modem_write(void *user, const uint8_t *octets, int count)
{
    on_pty *it = user;
    if (it->tty == NULL) return count;
    int put = pty_write(&it->pty, octets, count);
    it->is_fine &= put == count;
    return put;
}

/* There is no exchange: who dials or answers is on the line. */
static void on_event(void *user, int what)
{
    on_pty *it = user;
    it->was_on = 1;
    if (what != SOFT_HANGS_UP) it->way->kind->connect(it->soft, what == SOFT_DIALS);
}

/* The program's side: its wait is over when it begins, and its clock is the trial's. */
static int64_t trial_now(void *user)
{
    return ((on_pty *)user)->now;
}

static void trial_wait(void *user, int fd, int millis)
{
    struct pollfd ready = {fd, POLLIN, 0};
    (void)user;
    (void)millis;
    poll(&ready, 1, 0);
}

/* Stops the call at its time, as a signal would. */
static void stop(on_pty *it)
{
    int stops = it->given.calls ? it->kind->stops : it->kind->answerer_stops;
    if (it->call.terminal == NULL || it->call.millis != it->kind->stops_at) return;
    if (stops == 1) g3_terminal_stop(&it->call.station);
    if (stops == 2) terminal_hurry(it->call.terminal);
}

static void on_pty_step(void *user, const int16_t *in, int16_t *out)
{
    on_pty *it = user;
    it->now += SLICE_MILLIS;
    if (!it->given.calls && !it->was_on && (it->now % RINGS == 0 || it->now == FIRST_RING)) it->way->kind->ring(it->soft);
    it->way->kind->step(it->soft, in, out);
    if (it->tty == NULL) return;
    stop(it);
    if (tty_go_on(it->tty)) return;
    tty_end(it->tty);
    it->tty = NULL;
}

static int on_pty_is_over(void *user)
{
    return ((on_pty *)user)->tty == NULL;
}

static const char *on_pty_ending(void *user)
{
    static char why[2][sizeof ((call *)NULL)->fault]; /* of an answerer and a caller: it outlives them */
    on_pty *it = user;
    const char *text = it->call.why != NULL ? strstr(it->call.why, ": ") : NULL; /* after the tty's name */
    const char *end = it->call.terminal != NULL ? trial_ending(&it->call.station, it->call.terminal) : "no call";
    if (!it->is_fine) return "the pty has failed";
    if (text == NULL || strcmp(end, "normal") == 0) return end;
    snprintf(why[it->given.calls], sizeof why[0], "%s", text + 2);
    return why[it->given.calls];
}

/* Files */

/* Counts a file that was kept: it should be the next paper, as a raw PBM file. */
static void judge_file(const trial *kind, const char *name, outcome *out)
{
    size_t length = 0;
    uint8_t *octets = read_file(name, &length);
    unsigned width = 0, rows = 0;
    int header = 0;
    char head[32] = "";
    if (octets != NULL) memcpy(head, octets, length < sizeof head - 1 ? length : sizeof head - 1);
    int is_whole = sscanf(head, "P4\n%u %u%n", &width, &rows, &header) == 2
        && length == (size_t)header + 1 + (size_t)((width + 7) / 8) * rows;
    trial_judge(kind, out, is_whole ? width : 0, rows, octets + header + 1);
    free(octets);
}

/* Counts what was kept, and takes it away. What is in the folder beside pages is wrong too. */
static void judge_files(on_pty *it, outcome *out)
{
    char name[MOST_NAME + 24];
    for (unsigned i = 1;; i++) {
        snprintf(name, sizeof name, "%s/page-%u.pbm", it->kept, i);
        if (access(name, F_OK) != 0) break;
        judge_file(it->kind, name, out);
        unlink(name);
    }
    out->wrong += rmdir(it->kept) != 0;
}

static void on_pty_leave(void *user, outcome *out)
{
    on_pty *it = user;
    g3_state state = G3_INIT(g3_state);
    if (it->tty != NULL) tty_end(it->tty);
    out->stops += it->pty.stops;
    if (it->given.calls && it->call.terminal != NULL && g3_terminal_state(&it->call.station, &state) == G3_OK) out->confirmed = state.pages;
    if (it->call.terminal != NULL) out->counted[it->given.calls] = *terminal_figures(it->call.terminal);
    if (!it->given.calls) judge_files(it, out);
    for (int i = 0; i < it->given.count; i++) unlink(it->pages[i]);
    call_free(&it->call);
    if (it->soft != NULL) it->way->kind->free(it->soft);
    pty_free(&it->pty);
    free(it);
}

/* Writes the papers as files; returns whether all were. */
static int write_pages(on_pty *it)
{
    for (uint32_t i = 0; i < it->kind->pages; i++) {
        const paper *paper = &it->kind->papers[i];
        size_t octets = (size_t)paper->stride * paper->rows;
        snprintf(it->pages[i], MOST_NAME, "%s/paper-%u.pbm", it->folder, i + 1);
        FILE *file = fopen(it->pages[i], "wb");
        if (file == NULL) return 0;
        it->given.pages[it->given.count++] = it->pages[i];
        fprintf(file, "P4\n%u %u\n", paper->width, paper->rows);
        int is_whole = fwrite(paper->pixels, 1, octets, file) == octets;
        if (fclose(file) != 0 || !is_whole) return 0;
    }
    return 1;
}

/* The words of the command line, and the files. */
static int prepare(on_pty *it, int calls)
{
    const trial *kind = it->kind;
    it->given = (options){.calls = calls, .answers = !calls, .fine = !kind->standard, .refuses_ctc = !kind->ctc, .tells = kind->tells != NULL,
        .rings = 1, .tty = it->pty.name, .identity = kind->identity, .xon = it->way->ways.xoff, .modems = kind->modems,
        .coding = kind->coding};
    it->call.given = &it->given;
    if (calls) it->given.header = kind->header, it->given.font = kind->font, it->given.number = "5551234";
    else it->given.folder = it->kept;
    snprintf(it->kept, sizeof it->kept, "%s/kept", it->folder);
    return (calls ? write_pages(it) : mkdir(it->kept, S_IRUSR | S_IWUSR | S_IXUSR) == 0) && call_prepare(&it->call);
}

int trial_on_pty(party *out, const trial *kind, int calls, const behind_way *way, const char *folder)
{
    static const on_pty fresh;
    on_pty *it = malloc(sizeof *it);
    if (it == NULL) return 0;
    *it = fresh;
    it->kind = kind;
    it->way = way;
    it->folder = folder;
    it->is_fine = 1;
    tty_clock clock = {it, trial_now, trial_wait};
    port line = {it, modem_read, modem_write, NULL, NULL};
    if (pty_new(&it->pty) && prepare(it, calls)) it->soft = way->kind->make(&line, &way->ways, on_event, it);
    if (it->soft != NULL) it->tty = tty_begin(&it->call, &clock, kind->tells != NULL ? stderr : NULL);
    *out = (party){it, on_pty_step, on_pty_is_over, on_pty_ending, on_pty_leave};
    if (it->tty != NULL) return 1;
    outcome unused = {0};
    fprintf(stderr, "an end of a call can't begin on a pty\n");
    on_pty_leave(it, &unused);
    return 0;
}
