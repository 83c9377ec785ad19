/* call IN.pbm OUT.pbm [NUMBER [LAST]]: the page of an image goes from a caller to an answerer in one process, and is written as the answerer
 * stored it. The image is 1728, 2048 or 2432 pixels wide. Prints each burst. The burst of this number, from 1, is lost on the way. After
 * the turn with the burst LAST the line is gone, and the caller calls again. */
#include "g3fax.h"
#include "files.h"

static long sent, lost, last;

static int fails(const char *what, g3_status status)
{
    return fprintf(stderr, "%s: %s\n", what, g3_status_text(status)), 1;
}

/* One station hears a burst of the other one. */
static g3_status hear(g3_terminal *to, const g3_burst *burst, const uint8_t *octets, uint64_t length)
{
    g3_state state = G3_INIT(g3_state);
    g3_status status = g3_terminal_state(to, &state);
    if (status != G3_OK) return status;
    if (burst->check && state.listens == G3_HEARS_CHECK && state.carrier == burst->carrier)
        return g3_terminal_hear_training(to, octets, length);
    if (burst->carrier == G3_V21 || (!burst->check && state.listens >= G3_HEARS_PAGES && state.carrier == burst->carrier))
        return g3_terminal_hear(to, octets, length);
    return G3_OK; /* its modem doesn't listen for that */
}

/* One station says its turn, burst by burst. Tells how many there were. */
static g3_status say(const char *name, g3_terminal *from, g3_terminal *to, unsigned *said)
{
    g3_status status;
    g3_burst burst = G3_INIT(g3_burst);
    for (;;) {
        g3_octets line = G3_EMPTY;
        uint8_t *octets = NULL;
        uint64_t length = 0;
        status = g3_terminal_next_burst(from, &line, &burst);
        if (status == G3_NOTHING) return G3_OK;
        if (status == G3_OK) status = take_octets(&line, &octets, &length);
        if (status == G3_OK) {
            ++sent, ++*said;
            printf("%ld %s %s%s %llu%s\n", sent, name, g3_carrier_name(burst.carrier), burst.check ? " check" : "",
                   (unsigned long long)burst.bits, sent == lost ? " lost" : "");
            if (sent != lost) status = hear(to, &burst, octets, length);
        }
        free(octets);
        if (status != G3_OK) return status;
    }
}

/* The call, to its end, which is told. Where nothing is on the line, the shorter of the two waits is over; after the caller's end the
 * answerer's. */
static g3_status talk(g3_terminal *caller, g3_terminal *answerer, uint32_t *end)
{
    g3_state called = G3_INIT(g3_state), answers = G3_INIT(g3_state);
    g3_status status = G3_OK;
    while (status == G3_OK && (called.end == 0 || answers.end == 0)) {
        unsigned said = 0;
        status = say("answerer", answerer, caller, &said);
        if (status == G3_OK) status = say("caller", caller, answerer, &said);
        if (status == G3_OK && last != 0 && sent >= last) status = g3_terminal_lost(caller);
        if (status == G3_OK && last != 0 && sent >= last) status = g3_terminal_lost(answerer);
        if (status == G3_OK) status = g3_terminal_state(caller, &called);
        if (status == G3_OK) status = g3_terminal_state(answerer, &answers);
        if (status != G3_OK || said != 0 || (called.end != 0 && answers.end != 0)) continue;
        if (called.end != 0) status = g3_terminal_wait_over(answerer, answers.longer != 0 ? answers.longer : answers.wait);
        else if (answers.end == 0 && g3_wait_millis(answers.wait) < g3_wait_millis(called.wait))
            status = g3_terminal_wait_over(answerer, answers.wait);
        else status = g3_terminal_wait_over(caller, called.wait);
    }
    printf("caller: %s, %llu confirmed\nanswerer: %s, %llu stored\n", g3_end_text(called.end), (unsigned long long)called.pages,
           g3_end_text(answers.end), (unsigned long long)answers.pages);
    *end = called.end;
    return status;
}

/* Another call may go better after these ends, by the list of enum g3_end. */
static int is_again(uint32_t end)
{
    return end == G3_END_NO_ANSWER || (end >= G3_END_TRAINING && end <= G3_END_PEER_LEFT) || end == G3_END_LINE_LOST;
}

/* One call, and another one of the pages that aren't confirmed, if the first one fails. The answerer of the last one is left. */
static g3_status calls(g3_document *document, g3_terminal *answerer)
{
    const g3_caps caps = {.modems = G3_V17, .t6 = 1, .fine = 1, .widest = 2432, .limit = 2};
    const g3_wish wish = {.modems = G3_V17, .coding = G3_MMR, .frame = 256};
    g3_terminal caller = G3_EMPTY;
    uint64_t confirmed = 0;
    uint32_t end = 0;
    g3_status status = g3_document_code(document, wish.coding); /* once for both calls */
    if (status == G3_OK) status = g3_answerer_new(answerer, &caps);
    if (status == G3_OK) status = g3_caller_new(&caller, document, &wish);
    if (status == G3_OK) status = talk(&caller, answerer, &end);
    if (status == G3_OK && is_again(end)) {
        last = 0;
        g3_terminal_free(answerer);
        status = g3_terminal_take_document(&caller, document, &confirmed);
        if (status == G3_OK) status = g3_answerer_new(answerer, &caps);
        if (status == G3_OK) status = g3_caller_new_from(&caller, document, confirmed, &wish);
        if (status == G3_OK) status = talk(&caller, answerer, &end);
    }
    g3_terminal_free(&caller);
    return status;
}

int main(int argc, char **argv)
{
    g3_page page = G3_EMPTY, stored = G3_EMPTY;
    g3_document document = G3_EMPTY;
    g3_terminal answerer = G3_EMPTY;
    size_t length = 0;
    uint64_t count = 0;
    if (argc < 3 || argc > 5) return fprintf(stderr, "usage: call IN.pbm OUT.pbm [NUMBER [LAST]]\n"), 2;
    lost = argc > 3 ? atoi(argv[3]) : 0;
    last = argc > 4 ? atoi(argv[4]) : 0;
    uint8_t *image = read_file(argv[1], &length);
    if (image == NULL) return perror(argv[1]), 1;
    g3_status status = g3_page_read_pbm(image, length, 1, &page, &count);
    free(image);
    if (status == G3_OK) status = g3_document_new(&document);
    if (status == G3_OK) status = g3_document_push(&document, &page);
    if (status == G3_OK) status = calls(&document, &answerer);
    if (status == G3_OK) status = g3_terminal_take_page(&answerer, &stored);
    if (status == G3_OK) status = save_page(&stored, argv[2]);
    g3_page_free(&page); g3_page_free(&stored); g3_document_free(&document); g3_terminal_free(&answerer);
    return status == G3_OK ? 0 : fails(argv[1], status);
}
