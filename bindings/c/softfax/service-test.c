/* service-test FOLDER [CALLS]: softfax answers so many calls in one process, 100 if it isn't said, on a tty whose modem says CONNECT twice
 * before a frame. The line is clean, or cuts a carrier of the caller. Each tenth caller is killed amid its page. The modem dies twice, amid
 * a call and while it waits, and comes back as another tty under the same name. All goes by a clock of the test's own. Status 1: a call
 * that nothing was done to has failed, or its record has other figures than its line makes, one has no record or no folder of its own, a
 * page is stored that isn't the document's, or a confirmed one is missing. FOLDER is empty at first. */
#include "carriers.h"
#include "files.h"
#include "on_pty.h"
#include "pty.h"
#include "service.h"
#include <fcntl.h>
#include <poll.h>
#include <stdio.h>
#include <stdlib.h>
#include <string.h>
#include <sys/stat.h>
#include <unistd.h>

enum { ROWS = 48, FIRST_RING = 200, RINGS = 6000, LONGEST_CALL = 400000, AWAY = 3000, EACH_KILLED = 10, MOST_NAME = 300 };

enum { CUTS_PAGE = 3, LATER = 800 /* milliseconds: V.17 alone trains in the short way */ };

/* The lines of calls, in turn, and what the answerer of a page of six frames counts, as worked out by hand. Where DCS is lost, T2 ends, and
 * DIS is said again. What is cut of the page is in its first frame, which lasts 145 ms at least, after the training and 200 ms of flags. A
 * PPS that is lost the caller alone says again. */
static const struct { line_kind line; int failed_checks, pprs, resent, retries; } LINES[] = {
    {.line = {.name = "clean"}},
    {.line = {.name = "DCS is cut", .cut = 1, .lasts = 4000}, .retries = 1},
    {.line = {.name = "the check is cut", .cut = 2, .from = 1500, .lasts = 300}, .failed_checks = 1},
    {.line = {.name = "the page is cut", .cut = CUTS_PAGE, .from = 400, .lasts = 100}, .pprs = 1, .resent = 1},
    {.line = {.name = "PPS is cut", .cut = 4, .lasts = 4000}},
};
enum { LINES_COUNT = sizeof LINES / sizeof LINES[0] };

typedef struct machine {
    int64_t now, back;          /* back: when a modem that has died is there again; 0: it is there */
    pty pty;
    soft *soft;
    const behind_way *way;
    const tty_call *seen;       /* whose octets the pty has counted */
    char tty[MOST_NAME];        /* the link to the pty */
    int is_on;                  /* it has answered */
    options given;
    call call;
    tty_clock clock;
    service service;
    int goes_on;
} machine;

static int64_t machine_now(void *user)
{
    return ((machine *)user)->now;
}

static void machine_wait(void *user, int fd, int millis)
{
    struct pollfd ready = {fd, POLLIN, 0};
    (void)user;
    (void)millis;
    if (fd >= 0) poll(&ready, 1, 0);
}

/* The modem's side of the tty. */
static int modem_read(void *user, uint8_t *octets, int room)
{
    machine *it = user;
    if (it->service.on == NULL) return 0;
    if (it->service.on != it->seen) it->pty.taken = 0;
    it->seen = it->service.on;
    return pty_read(&it->pty, tty_written(it->service.on), octets, room);
}

static int modem_write(void *user, const uint8_t *octets, int count)
{
    machine *it = user;
    return it->service.on != NULL ? pty_write(&it->pty, octets, count) : count;
}

static void on_event(void *user, int what)
{
    machine *it = user;
    it->is_on = what != SOFT_HANGS_UP;
    if (it->is_on) it->way->kind->connect(it->soft, 0);
}

/* The modem comes, as a new tty under the old name. */
static int come(machine *it)
{
    port line = {it, modem_read, modem_write, NULL, NULL};
    it->back = 0;
    it->is_on = 0;
    it->seen = NULL;
    unlink(it->tty);
    if (!pty_new(&it->pty) || symlink(it->pty.name, it->tty) != 0) return 0;
    it->soft = it->way->kind->make(&line, &it->way->ways, on_event, it);
    return it->soft != NULL;
}

static void die(machine *it)
{
    if (it->soft != NULL) it->way->kind->free(it->soft);
    it->soft = NULL;
    pty_free(&it->pty);
    unlink(it->tty);
    it->back = it->now + AWAY;
}

/* A slice of the answerer's side. */
static void step(machine *it, int64_t called, const int16_t *in, int16_t *out)
{
    it->now += SLICE_MILLIS;
    memset(out, 0, SLICE * sizeof *out);
    if (it->back != 0 && it->now >= it->back) it->goes_on &= come(it);
    if (it->soft != NULL) {
        int64_t since = it->now - called;
        if (!it->is_on && (since % RINGS == FIRST_RING)) it->way->kind->ring(it->soft);
        it->way->kind->step(it->soft, in, out);
    }
    it->goes_on = it->goes_on && service_go_on(&it->service);
}

/* What is done to a call. */
typedef struct harm {
    int kills_caller, kills_modem, after; /* after: the modem dies when the call is over */
} harm;

static harm harm_of(int number, int calls)
{
    return (harm){number % EACH_KILLED == 0, number == calls / 3, number == calls * 2 / 3};
}

static uint32_t modems_of(int number)
{
    return 1 + (uint32_t)number % 3;
}

static line_kind line_of(int number)
{
    line_kind it = LINES[number % LINES_COUNT].line;
    if (it.cut == CUTS_PAGE && modems_of(number) != G3_V17) it.from += LATER;
    return it;
}

/* Runs a call; returns whether it went as it should: with no harm done, all of it. */
static int run_call(machine *it, const trial *kind, const char *folder, harm harm)
{
    static const behind_way WAY = {&soft_of_bits, {.repeats = 1}};
    int16_t said[SLICE] = {0}, replied[SLICE] = {0}, to_caller[SLICE] = {0}, to_answerer[SLICE] = {0};
    int64_t called = it->now, harmed = 8000 + (int64_t)(kind->seed % 7) * 500; /* amid DCS, check or page */
    uint64_t before = it->service.calls;
    party caller;
    line line;
    outcome came = {0};
    int is_alive = 1;
    if (!trial_on_pty(&caller, kind, 1, &WAY, folder)) return 0;
    line_new(&line, &kind->line, kind->seed);
    while (it->goes_on && it->service.calls == before && it->now - called < LONGEST_CALL) {
        if (is_alive) caller.step(caller.it, to_caller, said);
        step(it, called, to_answerer, replied);
        line_carry(&line, said, replied, to_caller, to_answerer);
        if (it->now - called != harmed) continue;
        if (harm.kills_caller) is_alive = 0, memset(said, 0, sizeof said);
        if (harm.kills_modem) die(it);
    }
    for (int i = 0; i < 1000 && is_alive && !caller.is_over(caller.it); i++) caller.step(caller.it, to_caller, said);
    int is_normal = strcmp(caller.ending(caller.it), "normal") == 0;
    caller.leave(caller.it, &came);
    if (harm.after) die(it);
    int is_harmed = harm.kills_caller || harm.kills_modem, is_well = is_normal && came.confirmed == kind->pages;
    if (!is_harmed && !is_well) printf("call %u: normal %d, confirmed %u\n", (uint32_t)before + 1, is_normal, (uint32_t)came.confirmed);
    return it->service.calls == before + 1 && (is_harmed || is_well);
}

/* What the records say of all calls. */
typedef struct told_of { int normal, ends, stored, wrong, folders, figured; } told_of;

/* Whether a file has the paper. */
static int is_paper(const char *name, const paper *paper)
{
    char header[40];
    size_t length = 0, octets = (size_t)paper->stride * paper->rows;
    int first = snprintf(header, sizeof header, "P4\n%u %u\n", paper->width, paper->rows);
    uint8_t *file = read_file(name, &length);
    int is = file != NULL && length == (size_t)first + octets && memcmp(file, header, (size_t)first) == 0
        && memcmp(file + first, paper->pixels, octets) == 0;
    free(file);
    return is;
}

/* Whether the record of a normal end has the figures of its call: after a check that fails the next slower speed is taken. */
static int has_figures(const char *line, int number)
{
    static const uint32_t FIRST[] = {[G3_V27TER] = G3_V27TER_4800, [G3_V29] = G3_V29_9600, [G3_V17] = G3_V17_14400};
    static const uint32_t SLOWER[] = {[G3_V27TER] = G3_V27TER_2400, [G3_V29] = G3_V29_7200, [G3_V17] = G3_V17_12000};
    int of = number % LINES_COUNT, modems = (int)modems_of(number);
    uint32_t last = LINES[of].failed_checks > 0 ? SLOWER[modems] : FIRST[modems];
    char wanted[400];
    snprintf(wanted, sizeof wanted, "{\"end\":\"normal\",\"pages\":1,\"blocks\":1,\"failed_checks\":%d,\"first_speed\":\"%s\","
        "\"last_speed\":\"%s\",\"peer\":\"+49 30 1234\",\"pprs\":%d,\"resent\":%d,\"retries\":%d,\"seconds\":", LINES[of].failed_checks,
        carrier_name(FIRST[modems]), carrier_name(last), LINES[of].pprs, LINES[of].resent, LINES[of].retries);
    if (strstr(line, wanted) == line) return 1;
    printf("call %d, %s: %s\n", number, LINES[of].line.name, line);
    return 0;
}

/* Takes a record into account. */
static void read_record(told_of *to, const char *line, const paper *paper, char *last)
{
    const char *call = strstr(line, "\"call\":");
    char name[MOST_NAME], *end;
    const char *file = strstr(line, "\"file\":\"");
    to->ends += strstr(line, "{\"end\":") == line;
    to->normal += strstr(line, "{\"end\":\"normal\"") == line;
    to->figured += strstr(line, "{\"end\":\"normal\"") == line && call != NULL && has_figures(line, atoi(call + 7));
    if (file == NULL) return;
    snprintf(name, sizeof name, "%s", file + 8);
    if ((end = strchr(name, '"')) != NULL) *end = 0;
    to->stored++;
    to->wrong += !is_paper(name, paper);
    if ((end = strrchr(name, '/')) != NULL) *end = 0;
    to->folders += strcmp(name, last) != 0;
    snprintf(last, MOST_NAME, "%s", name);
}

static told_of read_records(const char *name, const paper *paper)
{
    told_of all = {0};
    char last[MOST_NAME] = "", *line, *next;
    size_t length = 0;
    uint8_t *octets = read_file(name, &length);
    if (octets == NULL) return all;
    octets[length < MOST_FILE ? length - 1 : 0] = 0; /* the last LF */
    for (line = (char *)octets; line != NULL; line = next) {
        if ((next = strchr(line, '\n')) != NULL) *next++ = 0;
        read_record(&all, line, paper, last);
    }
    free(octets);
    return all;
}

/* Runs all calls; returns whether each went as it should. */
static int run_all(machine *it, int calls, const paper *papers, const char *folder, int *harmed)
{
    int well = 0;
    for (int i = 1; i <= calls && it->goes_on; i++) {
        harm harm = harm_of(i, calls);
        trial kind = {.line = line_of(i), .modems = modems_of(i), .coding = G3_MMR, .pages = 1, .limit = 2,
            .seed = (uint64_t)i, .papers = papers, .identity = "+49 30 1234"};
        *harmed += harm.kills_caller || harm.kills_modem;
        well += run_call(it, &kind, folder, harm);
    }
    return well == calls && !it->goes_on;
}

static int prepare(machine *it, int calls, const char *folder, char *faxes, char *records)
{
    static const behind_way WAY = {&soft_of_bits, {.repeats = 1}};
    snprintf(it->tty, sizeof it->tty, "%s/tty", folder);
    snprintf(faxes, MOST_NAME, "%s/faxes", folder);
    snprintf(records, MOST_NAME, "%s/records", folder);
    it->way = &WAY;
    it->back = AWAY;
    it->given = (options){.answers = 1, .fine = 1, .json = 1, .rings = 1, .most_calls = calls, .waits_for_tty = 1, .tty = it->tty,
        .folder = faxes, .modems = G3_V17, .coding = G3_MMR};
    it->call.given = &it->given;
    it->clock = (tty_clock){it, machine_now, machine_wait};
    it->goes_on = 1;
    it->pty.master = it->pty.slave = -1;
    if (mkdir(faxes, S_IRUSR | S_IWUSR | S_IXUSR) != 0) return 0;
    int file = open(records, O_WRONLY | O_CREAT | O_TRUNC, S_IRUSR | S_IWUSR);
    if (file < 0 || dup2(file, STDERR_FILENO) < 0 || close(file) != 0) return 0;
    service_begin(&it->service, &it->call, &it->clock, NULL);
    return 1;
}

int main(int argc, char **argv)
{
    static machine it;
    char faxes[MOST_NAME], records[MOST_NAME];
    paper papers[1];
    int calls = argc > 2 ? atoi(argv[2]) : 100, harmed = 0;
    if (argc < 2 || !paper_new(&papers[0], 1728, ROWS, 1) || !prepare(&it, calls, argv[1], faxes, records)) {
        return printf("service-test: it can't begin\n"), 1;
    }
    int is_well = run_all(&it, calls, papers, argv[1], &harmed);
    service_end(&it.service);
    call_free(&it.call);
    die(&it);
    told_of all = read_records(records, papers);
    printf("softfax: one process answers %d calls, of which %d are killed or lose their modem: %d end normally, %d with the figures that "
        "their line makes, %d pages are stored, in %d folders\n", all.ends, harmed, all.normal, all.figured, all.stored, all.folders);
    is_well = is_well && all.ends == calls && all.normal == calls - harmed && all.figured == all.normal && all.wrong == 0
        && all.stored >= all.normal && all.folders == all.stored && !it.service.has_failed;
    paper_free(&papers[0]);
    return !is_well;
}
