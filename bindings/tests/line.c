/* The loop of a call that bindings/README.md has, for both ends of a line of virtual time: .ci/readme_programs.sh links it with this. Prints
 * how many calls there were, and ends with 0 if each ended, woke no more often than something happened, and confirmed no page before it was
 * stored. */
#include "g3fax.h"
#include <stdio.h>
#include <stdlib.h>
#include <string.h>
/* words of a struct that are left out are 0 */
#pragma GCC diagnostic ignored "-Wmissing-field-initializers"

/* of the C library */
typedef struct { long of[4]; } sem_t;
_Noreturn void exit(int status);
int sem_init(sem_t *it, int shared, unsigned value);
int sem_wait(sem_t *it);
int sem_post(sem_t *it);
int pthread_create(unsigned long *thread, const void *attributes, void *(*run)(void *), void *of);
int pthread_join(unsigned long thread, void **answer);

#define NEVER UINT64_MAX
enum { BETWEEN = 75, MOST = 512 };

/* a carrier on the line, by its times */
typedef struct burst {
    uint64_t begins, ends, length;
    uint32_t carrier, check;
    uint8_t *octets; /* NULL: nothing of it is heard */
} burst;

/* One end of the line. One of both runs at a time, that whose time comes first. */
typedef struct modem {
    struct modem *other;
    g3_terminal terminal;
    sem_t turn;
    uint64_t now, until;
    int is_over, is_on; /* a carrier comes */
    burst comes[MOST];
    int sent, heard;    /* how many the other one has sent, and how many have ended */
    int lose;           /* each burst of this number is lost; 0: none */
    int mute;           /* this burst and all after it are lost; 0: none */
    long woken;
    uint64_t pages;
    int is_early;       /* a page of an answerer was confirmed before it was stored */
    g3_status status;
} modem;

g3_status talk(g3_terminal *terminal, modem *line);

uint64_t modem_now(modem *line) { return line->now; }
int modem_is_quiet(modem *line) { return !line->is_on; }

/* When something comes next. */
static uint64_t next_of(const modem *line)
{
    const burst *next = &line->comes[line->heard];
    if (line->heard == line->sent) return NEVER;
    return line->is_on ? next->ends : next->begins;
}

/* Gives the turn to the other end, and waits for it to come back. */
static void yield(modem *line)
{
    sem_post(&line->other->turn);
    sem_wait(&line->turn);
}

static g3_status hear(modem *line, const g3_state *state, const burst *it)
{
    int by_v21 = it->carrier == G3_V21, is_page = !by_v21 && it->carrier == state->carrier;
    if (it->octets == NULL) return G3_OK;
    if (it->check) {
        if (state->listens == G3_HEARS_CHECK && is_page) return g3_terminal_hear_training(&line->terminal, it->octets, it->length);
    } else if (by_v21 || (is_page && state->listens >= G3_HEARS_PAGES)) {
        return g3_terminal_hear(&line->terminal, it->octets, it->length);
    }
    return G3_OK;
}

/* Waits until something comes, or until `g3_terminal_due`. G3_NOTHING: neither end ever does anything. */
g3_status modem_listen(modem *line, const g3_state *state, g3_terminal *terminal)
{
    uint64_t due = NEVER, next = NEVER;
    g3_status status = g3_terminal_due(terminal, &due);
    if (status == G3_NOTHING) due = NEVER;
    for (;;) {
        next = next_of(line);
        line->until = due < next ? due : next;
        if (line->other->is_over || line->until < line->other->until) break;
        if (line->until == line->other->until && line < line->other) break;
        yield(line);
    }
    if (line->until == NEVER) return G3_NOTHING;
    line->woken++;
    if (line->until > line->now) line->now = line->until;
    line->until = 0; /* it runs */
    if (next > due) return G3_OK;
    line->is_on = !line->is_on;
    if (line->is_on) return G3_OK;
    return hear(line, state, &line->comes[line->heard++]);
}

/* Puts a burst on the line. */
static void put(modem *line, burst it)
{
    modem *to = line->other;
    int number = to->sent + 1;
    if (number > MOST) exit(1);
    if ((line->lose != 0 && number % line->lose == 0) || (line->mute != 0 && number >= line->mute)) {
        free(it.octets);
        it.octets = NULL;
    }
    if (to->until > it.begins) to->until = it.begins;
    to->comes[to->sent++] = it;
}

g3_status modem_send(modem *line, g3_terminal *terminal)
{
    g3_octets octets = G3_EMPTY;
    g3_burst told = G3_INIT(g3_burst);
    g3_status status;
    int any = 0;
    while ((status = g3_terminal_next_burst(terminal, &octets, &told)) == G3_OK) {
        any = 1;
        burst it = {.begins = line->now + BETWEEN, .carrier = told.carrier, .check = told.check};
        it.ends = it.begins + 1 + told.bits * 1000 / g3_carrier_rate(told.carrier);
        if (g3_octets_len(&octets, &it.length) != G3_OK) exit(1);
        it.octets = malloc(it.length);
        if (it.octets == NULL || g3_octets_copy(&octets, it.octets, it.length, &it.length) != G3_OK) exit(1);
        g3_octets_free(&octets);
        put(line, it);
        line->now = it.ends;
        g3_progress far = G3_INIT(g3_progress);
        if (g3_terminal_progress(terminal, &far) != G3_OK) exit(1);
        line->is_early |= line > line->other && far.confirmed > line->pages;
    }
    return status == G3_NOTHING && any ? G3_OK : status;
}

g3_status store_pages(g3_terminal *terminal)
{
    g3_page page = G3_EMPTY;
    g3_status status;
    modem *line = (modem *)((char *)terminal - __builtin_offsetof(modem, terminal));
    while ((status = g3_terminal_take_page(terminal, &page)) == G3_OK) {
        g3_page_free(&page);
        line->pages++;
    }
    return status == G3_NOTHING || status == G3_OTHER_HANDLE ? G3_OK : status;
}

static void *runs(void *of)
{
    modem *line = of;
    sem_wait(&line->turn);
    line->status = talk(&line->terminal, line);
    line->is_over = 1;
    line->until = NEVER;
    sem_post(&line->other->turn);
    return NULL;
}

/* A caller of two pages of a white row. */
static void make_caller(modem *line)
{
    static const uint8_t row[216];
    g3_document document = G3_EMPTY;
    g3_page page = G3_EMPTY;
    g3_wish wish = {G3_V17, G3_MMR, 256};
    int well = g3_document_new(&document) == G3_OK;
    for (int number = 0; number < 2; number++) {
        well &= g3_page_new(&page, 1728, 1) == G3_OK && g3_page_push_row(&page, row, sizeof row) == G3_OK
            && g3_document_push(&document, &page) == G3_OK;
    }
    if (!well || g3_caller_new(&line->terminal, &document, &wish) != G3_OK) exit(1);
}

/* which ends are there */
enum { CALLER = 1, ANSWERER = 2, BOTH = 3 };

/* A call: which bursts of each end are lost, which ends are there, when a carrier comes to both ends that doesn't end (NEVER: none does), how
 * many seconds it lasts at most, and from which burst of each end on nothing is heard (0: all is). */
typedef struct way {
    int lose_calls, lose_answers, there;
    uint64_t music;
    uint32_t most;
    int mute_calls, mute_answers;
} way;

/* Whether an end has ended its call, with nothing left to be said, and woke no more often than something came or a wait ended. Without a carrier
 * that goes on no end waits for the limit, unless that is short. */
static int has_ended(modem *line, const way *it, uint32_t end)
{
    g3_octets left = G3_EMPTY;
    g3_burst told = G3_INIT(g3_burst);
    int limited = end == G3_END_STOPPED || end == G3_END_LINE_LOST;
    return line->status == G3_OK && end != 0 && line->woken <= 2 * line->sent + 60 && line->now <= it->most * 1000ull + 14000
        && limited == (it->music != NEVER || it->most < 60) && g3_terminal_next_burst(&line->terminal, &left, &told) == G3_NOTHING;
}

/* Makes a call. Returns why the caller's call ended, or the answerer's if there is no caller; 0 if something is wrong. */
static uint32_t call(way it)
{
    static modem ends[2];
    g3_caps caps = {G3_V17, 1, 1, 2432, 4};
    g3_state state = G3_INIT(g3_state);
    g3_progress far = G3_INIT(g3_progress);
    unsigned long threads[2];
    int well = 1, first = it.there == ANSWERER, past = it.there == CALLER ? 1 : 2;
    memset(ends, 0, sizeof ends);
    if (g3_answerer_new(&ends[1].terminal, &caps) != G3_OK) exit(1);
    make_caller(&ends[0]);
    ends[0].lose = it.lose_calls, ends[1].lose = it.lose_answers;
    ends[0].mute = it.mute_calls, ends[1].mute = it.mute_answers;
    for (int end = 0; end < 2; end++) {
        ends[end].other = &ends[1 - end];
        sem_init(&ends[end].turn, 0, 0);
        if (g3_terminal_most_seconds(&ends[end].terminal, it.most) != G3_OK) exit(1);
        if (it.music != NEVER) ends[end].comes[ends[end].sent++] = (burst){.begins = it.music, .ends = NEVER - 1, .carrier = G3_V21};
    }
    for (int end = 0; end < 2; end++) {
        if (end < first || end >= past) ends[end].is_over = 1, ends[end].until = NEVER;
    }
    for (int end = first; end < past; end++) pthread_create(&threads[end], NULL, runs, &ends[end]);
    sem_post(&ends[past - 1].turn);
    for (int end = first; end < past; end++) pthread_join(threads[end], NULL);
    for (int end = first; end < past; end++) {
        well &= g3_terminal_state(&ends[end].terminal, &state) == G3_OK && has_ended(&ends[end], &it, state.end);
    }
    well &= g3_terminal_progress(&ends[0].terminal, &far) == G3_OK && far.confirmed <= ends[1].pages && !ends[1].is_early;
    if (g3_terminal_state(&ends[first].terminal, &state) != G3_OK) exit(1);
    if (!well) {
        printf("lost %d %d, from %d %d on, there %d, carrier at %llu, %u s: statuses %u %u, woken %ld %ld, ended at %llu %llu, confirmed %llu of %llu\n",
            it.lose_calls, it.lose_answers, it.mute_calls, it.mute_answers, it.there, (unsigned long long)it.music, it.most, ends[0].status,
            ends[1].status, ends[0].woken, ends[1].woken, (unsigned long long)ends[0].now, (unsigned long long)ends[1].now,
            (unsigned long long)far.confirmed, (unsigned long long)ends[1].pages);
    }
    for (int end = 0; end < 2; end++) {
        g3_terminal_free(&ends[end].terminal);
        for (int number = 0; number < ends[end].sent; number++) free(ends[end].comes[number].octets);
    }
    return well ? state.end : 0;
}

/* Whether a call ends so, or in any way for 0. */
static int ends_so(way it, uint32_t end)
{
    uint32_t found = call(it);
    return found != 0 && (end == 0 || found == end);
}

int main(void)
{
    int calls = 3, well = 1;
    well &= ends_so((way){0, 0, BOTH, NEVER, 600, 0, 0}, G3_END_NORMAL);
    well &= ends_so((way){0, 0, ANSWERER, NEVER, 600, 0, 0}, G3_END_NO_ANSWER); /* nobody calls */
    well &= ends_so((way){0, 0, CALLER, NEVER, 600, 0, 0}, G3_END_NO_ANSWER);   /* nobody answers */
    for (uint32_t most = 1; most < 9; most++, calls++) well &= ends_so((way){0, 0, BOTH, NEVER, most, 0, 0}, 0);
    for (int lose = 2; lose < 12; lose++, calls += 3) {
        well &= ends_so((way){lose, 0, BOTH, NEVER, 600, 0, 0}, 0);
        well &= ends_so((way){0, lose, BOTH, NEVER, 600, 0, 0}, 0);
        well &= ends_so((way){lose, lose + 1, BOTH, NEVER, 600, 0, 0}, 0);
    }
    for (int mute = 1; mute < 8; mute++, calls += 3) { /* one end falls silent, or both do */
        well &= ends_so((way){0, 0, BOTH, NEVER, 600, mute, 0}, 0);
        well &= ends_so((way){0, 0, BOTH, NEVER, 600, 0, mute}, 0);
        well &= ends_so((way){0, 0, BOTH, NEVER, 600, mute, mute}, 0);
    }
    for (uint64_t music = 500; music < 20000; music += 700, calls++) well &= ends_so((way){0, 0, BOTH, music, 600, 0, 0}, 0);
    printf("the loop of a call: %d calls over a line of virtual time\n", calls);
    return !well;
}
