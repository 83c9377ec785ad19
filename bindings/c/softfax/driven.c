/* driven SOCKET FOLDER caller|answerer: a modem's program as docs/examples/driver.py wants it, on a socket that it makes: what the driver
 * sends goes by libspandsp's modems over a line to libspandsp's own terminal, and back, in real time. FOLDER is for the files of that
 * terminal, which is the caller or the answerer; the page of the call is left there as page.pbm. Status 1: it didn't end normally, or as an
 * answerer it has not the page. */
#include "carriers.h"
#include "theirs.h"
#include <stdio.h>
#include <stdlib.h>
#include <string.h>
#include <sys/socket.h>
#include <sys/un.h>
#include <time.h>
#include <unistd.h>

enum { ROWS = 200, MOST_OCTETS = 1 << 18, MOST_LINE = 1 << 20, LONGEST = 120000, BEFORE_CALL = 1000 };

typedef struct driven {
    int driver;                  /* the socket */
    char line[MOST_LINE];        /* what came from it */
    size_t filled;
    modem *modem;
    uint8_t said[MOST_OCTETS];   /* the burst that goes out */
    int is_saying, is_trained;
    uint32_t hears;              /* the page's carrier that is listened for; 0: V.21 alone */
    char kind[8];                /* what comes by it: raw or hdlc */
    uint8_t heard[RECEIVERS][MOST_OCTETS];
    size_t count[RECEIVERS];
} driven;

static uint32_t carrier_of(const char *name)
{
    for (uint32_t i = G3_V21; i <= G3_V17_14400; i++) {
        if (carrier_name(i) != NULL && strcmp(carrier_name(i), name) == 0) return i;
    }
    return 0;
}

static void tell(driven *it, const char *text)
{
    size_t length = strlen(text), at = 0;
    for (ssize_t put = 0; at < length && put >= 0; at += (size_t)put) {
        put = send(it->driver, text + at, length - at, MSG_NOSIGNAL);
        if (put < 0) return; /* the driver has left */
    }
}

/* Begins a burst: `tx CARRIER KIND BITS HEX`. */
static void begin_burst(driven *it, const char *name, const char *kind, uint64_t bits, const char *hex)
{
    uint32_t carrier = carrier_of(name);
    char digits[3] = "";
    for (size_t i = 0; i < MOST_OCTETS && hex[2 * i] != 0; i++) {
        memcpy(digits, hex + 2 * i, 2);
        it->said[i] = (uint8_t)strtoul(digits, NULL, 16);
    }
    modem_of_sound.begin_carrier(it->modem, carrier, carrier != G3_V21 && strcmp(kind, "hdlc") == 0, it->said, bits);
    it->is_saying = 1;
}

static void listen_for(driven *it, const char *name, const char *kind)
{
    it->hears = strcmp(name, "v21") == 0 ? 0 : carrier_of(name);
    snprintf(it->kind, sizeof it->kind, "%s", kind);
    modem_of_sound.listen(it->modem, it->hears, strcmp(kind, "hdlc") == 0);
}

static void take_line(driven *it, char *line)
{
    char *words[5] = {line, "", "", "", ""};
    for (int i = 1; i < 5; i++) {
        char *blank = strchr(words[i - 1], ' ');
        if (blank == NULL) break;
        *blank = 0;
        words[i] = blank + 1;
    }
    if (strcmp(words[0], "tx") == 0) begin_burst(it, words[1], words[2], strtoull(words[3], NULL, 10), words[4]);
    if (strcmp(words[0], "hear") == 0) listen_for(it, words[1], words[2]);
}

/* Takes the lines that have come; returns whether the driver is there. */
static int read_driver(driven *it)
{
    ssize_t got = recv(it->driver, it->line + it->filled, MOST_LINE - it->filled - 1, MSG_DONTWAIT);
    char *end;
    if (got == 0) return 0;
    if (got > 0) it->filled += (size_t)got;
    it->line[it->filled] = 0;
    while ((end = memchr(it->line, '\n', it->filled)) != NULL) {
        *end++ = 0;
        take_line(it, it->line);
        it->filled -= (size_t)(end - it->line);
        memmove(it->line, end, it->filled);
    }
    return 1;
}

/* A signal has ended: what it brought, by the page's carrier if that was trained. */
static void tell_signal(driven *it)
{
    static char text[2 * MOST_OCTETS + 100];
    int by = it->is_trained ? BY_PAGE : BY_V21;
    int length = snprintf(text, sizeof text, "rx %s %s %zu ", carrier_name(it->is_trained ? it->hears : G3_V21),
        it->is_trained ? it->kind : "hdlc", 8 * it->count[by]);
    for (size_t i = 0; i < it->count[by]; i++) length += sprintf(text + length, "%02X", it->heard[by][i]);
    strcpy(text + length, "\n");
    tell(it, text);
}

static void hear(driven *it, const int16_t *in)
{
    modem_heard heard;
    modem_of_sound.hear(it->modem, in, &heard);
    if (heard.begins) {
        it->is_trained = 0;
        it->count[BY_V21] = it->count[BY_PAGE] = 0;
        tell(it, "busy\n");
    }
    if (heard.trains) it->is_trained = 1, it->count[BY_PAGE] = 0;
    for (int by = 0; by < RECEIVERS; by++) {
        if (it->count[by] + heard.count[by] > MOST_OCTETS) continue;
        memcpy(it->heard[by] + it->count[by], heard.octets[by], heard.count[by]);
        it->count[by] += heard.count[by];
    }
    if (!heard.ends) return;
    tell_signal(it);
    modem_of_sound.listen(it->modem, it->hears, strcmp(it->kind, "hdlc") == 0);
}

/* A slice of this side: it says what the driver gave it, or hears. */
static void step(driven *it, const int16_t *in, int16_t *out)
{
    memset(out, 0, SLICE * sizeof *out);
    if (!it->is_saying) hear(it, in);
    else if (!modem_of_sound.say(it->modem, out)) {
        it->is_saying = 0;
        modem_of_sound.forget(it->modem);
        modem_of_sound.listen(it->modem, it->hears, strcmp(it->kind, "hdlc") == 0);
        tell(it, "sent\n");
    }
}

/* Waits for the driver on a new socket; returns whether it has come. */
static int meet(driven *it, const char *name)
{
    struct sockaddr_un address = {.sun_family = AF_UNIX};
    int listener = socket(AF_UNIX, SOCK_STREAM, 0);
    if (listener < 0 || strlen(name) >= sizeof address.sun_path) return 0;
    strcpy(address.sun_path, name);
    if (bind(listener, (struct sockaddr *)&address, sizeof address) == 0 && listen(listener, 1) == 0) it->driver = accept(listener, NULL, NULL);
    close(listener);
    return it->driver >= 0;
}

/* Carries the call in real time, until both have ended. */
static void run(driven *it, party *theirs, int they_call)
{
    static const line_kind CLEAN = {.name = "clean"};
    int16_t said[2][SLICE] = {{0}}, to[2][SLICE] = {{0}}; /* of the caller and the answerer */
    struct timespec next;
    line line;
    line_new(&line, &CLEAN, 1);
    clock_gettime(CLOCK_MONOTONIC, &next);
    for (int millis = 0; millis < LONGEST && read_driver(it); millis += SLICE_MILLIS) {
        if (millis >= BEFORE_CALL) theirs->step(theirs->it, to[!they_call], said[!they_call]);
        step(it, to[they_call], said[they_call]);
        line_carry(&line, said[0], said[1], to[0], to[1]);
        next.tv_nsec += SLICE_MILLIS * 1000000;
        if (next.tv_nsec >= 1000000000) next.tv_nsec -= 1000000000, next.tv_sec++;
        clock_nanosleep(CLOCK_MONOTONIC, TIMER_ABSTIME, &next, NULL);
    }
    for (int i = 0; i < 1000 && !theirs->is_over(theirs->it); i++) theirs->step(theirs->it, to[!they_call], said[!they_call]);
}

static int write_page(const paper *page, const char *folder)
{
    char name[300];
    snprintf(name, sizeof name, "%s/page.pbm", folder);
    FILE *file = fopen(name, "wb");
    if (file == NULL) return 0;
    fprintf(file, "P4\n%u %u\n", page->width, page->rows);
    size_t octets = (size_t)page->stride * page->rows;
    int is_whole = fwrite(page->pixels, 1, octets, file) == octets;
    return fclose(file) == 0 && is_whole;
}

int main(int argc, char **argv)
{
    static driven it = {.driver = -1, .kind = "hdlc"};
    paper papers[1];
    party theirs;
    outcome came = {0};
    int they_call = argc == 4 && strcmp(argv[3], "caller") == 0;
    if (argc != 4) return fprintf(stderr, "usage: driven SOCKET FOLDER caller|answerer\n"), 2;
    if (!paper_new(&papers[0], 1728, ROWS, 1) || !write_page(&papers[0], argv[2])) return perror(argv[2]), 1;
    trial kind = {.modems = G3_V17, .coding = G3_MMR, .pages = 1, .papers = papers};
    it.modem = modem_new();
    if (it.modem == NULL || !trial_theirs(&theirs, &kind, they_call, argv[2]) || !meet(&it, argv[1])) return perror(argv[1]), 1;
    run(&it, &theirs, they_call);
    const char *end = theirs.ending(theirs.it);
    theirs.leave(theirs.it, &came);
    modem_of_sound.free(it.modem);
    close(it.driver);
    printf("libspandsp's %s: %s, %u pages\n", argv[3], end, they_call ? (uint32_t)came.confirmed : came.equal);
    int is_well = strcmp(end, "normal") == 0 && (they_call ? came.confirmed == 1 : came.equal == 1 && came.wrong == 0);
    paper_free(&papers[0]);
    return !is_well;
}
