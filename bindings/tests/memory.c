/* memory IN.pbm LINE.bits: each growth of a round of calls is refused in turn. Each call answers G3_OK or G3_NO_MEMORY, a call that was
 * refused memory gives what it gives when it is made again, and no block is left. A terminal that hears may lose a frame, and then the page
 * goes over all the same. Prints how many growths there were. */
#include "g3fax.h"
#include "heap.h"
#include <stdint.h>
#include <stdio.h>
#include <string.h>
/* words of a struct that are left out are 0 */
#pragma GCC diagnostic ignored "-Wmissing-field-initializers"

static uint8_t image[1 << 16], rows[1 << 16], line[1 << 16], code[1 << 16], again[1 << 16], content[300];
static int bad;

/* Once more where memory was refused. */
#define DOES(call) do { \
        g3_status status = (call); \
        if (status == G3_NO_MEMORY) status = (call); \
        if (status != G3_OK) printf("growth %lu refused: line %d: %u\n", refused, __LINE__, status), bad = 1; \
    } while (0)

static size_t load(const char *name, uint8_t *to)
{
    FILE *file = fopen(name, "rb");
    size_t length = file == NULL ? 0 : fread(to, 1, 1 << 16, file);
    if (file != NULL) fclose(file);
    return length;
}

static void codes(size_t length, uint32_t coding)
{
    g3_page page = G3_EMPTY, back = G3_EMPTY, kept = G3_EMPTY;
    g3_octets octets = G3_EMPTY, text = G3_EMPTY;
    g3_code form = {coding, G3_LSB_FIRST, 315, 0};
    g3_raster raster = {64, 315, 10, 0};
    g3_found found = G3_INIT(g3_found);
    uint64_t count = 0, size = 0, place = 0;
    uint32_t fault = 0;
    DOES(g3_page_read_pbm(image, length, 0, &page, &count));
    DOES(g3_page_encode(&page, coding, G3_LSB_FIRST, &octets));
    DOES(g3_octets_copy(&octets, code, sizeof code, &size));
    DOES(g3_page_decode(code, size, &form, &back, &place));
    DOES(g3_identify(code, size, &found));
    if (found.kind != (coding == G3_MH ? G3_FOUND_PAGE : G3_FOUND_SEVERAL)) printf("growth %lu refused: another kind\n", refused), bad = 1;
    DOES(g3_page_push_row(&back, image, 40));
    DOES(g3_page_salvage(code, size / 2, &form, &kept, &fault, &place));
    if (fault < G3_BAD_CODE || place > size / 2 * 8) printf("growth %lu refused: fault %u at bit %lu\n", refused, fault, place), bad = 1;
    g3_page_free(&kept);
    DOES(g3_page_salvage(code, size, &form, &kept, &fault, &place));
    if (fault != G3_OK || place > size * 8) printf("growth %lu refused: fault %u\n", refused, fault), bad = 1;
    g3_page_free(&kept);
    DOES(g3_page_write_raster(&page, 64, rows, sizeof rows, &size));
    DOES(g3_page_read_raster(rows, size, &raster, &kept));
    g3_page_free(&kept);
    if (coding == G3_MH) DOES(g3_page_repair(code, size, &form, &kept, &count));
    DOES(g3_page_write_pbm(&page, &text));
    DOES(g3_octets_copy(&text, again, sizeof again, &size));
    if (size != length || memcmp(again, image, length) != 0) printf("growth %lu refused: another image\n", refused), bad = 1;
    g3_page_free(&page); g3_page_free(&back); g3_page_free(&kept);
    g3_octets_free(&octets); g3_octets_free(&text);
}

/* A page is coded row by row, and read row by row from pieces of three octets. */
static void rows_of(uint32_t coding)
{
    g3_row_coder coder = G3_EMPTY;
    g3_row_reader reader = G3_EMPTY;
    g3_octets octets = G3_EMPTY;
    g3_code form = {coding, G3_LSB_FIRST, 315, 0};
    uint64_t count = 0, size = 0, place = 0, taken = 0;
    unsigned read = 0;
    g3_status status = G3_OK;
    DOES(g3_row_coder_new(&coder, &form));
    for (unsigned row = 0; row < 7; row++) {
        DOES(g3_row_coder_push_row(&coder, image + row, 40));
        DOES(g3_row_coder_take(&coder, &octets));
        DOES(g3_octets_copy(&octets, code + size, sizeof code - size, &count));
        g3_octets_free(&octets);
        size += count;
    }
    DOES(g3_row_coder_finish(&coder, &octets));
    DOES(g3_octets_copy(&octets, code + size, sizeof code - size, &count));
    size += count;
    DOES(g3_row_reader_new(&reader, &form));
    for (size_t at = 0; at < size; at += taken) {
        DOES(g3_row_reader_feed(&reader, code + at, size - at < 3 ? size - at : 3, &taken));
        for (;;) {
            status = g3_row_reader_next(&reader, again, sizeof again, &count, &place);
            if (status == G3_NO_MEMORY) status = g3_row_reader_next(&reader, again, sizeof again, &count, &place);
            if (status != G3_OK) break;
            again[39] &= 0xE0; /* 315 pixels are 39 octets and three bits */
            if (count != 40 || memcmp(again, image + read, 39) != 0 || again[39] != (image[read + 39] & 0xE0))
                printf("growth %lu refused: another row\n", refused), bad = 1;
            read++;
        }
    }
    if (read != 7 || status != G3_NOTHING) printf("growth %lu refused: %u rows, %u\n", refused, read, status), bad = 1;
    g3_row_coder_free(&coder); g3_row_reader_free(&reader); g3_octets_free(&octets);
}

static void frames(size_t length)
{
    g3_deframer deframer = G3_EMPTY;
    g3_octets frame = G3_EMPTY;
    uint64_t count = 0, bits = 0;
    unsigned found = 0;
    DOES(g3_deframer_new(&deframer));
    for (size_t at = 0; at < length; at += 5) DOES(g3_deframer_feed(&deframer, line + at, length - at < 5 ? length - at : 5));
    while (g3_deframer_next(&deframer, content, sizeof content, &count) == G3_OK) found++;
    if (found != 46) printf("growth %lu refused: %u frames\n", refused, found), bad = 1;
    DOES(g3_frame_write(content, 300, &frame, &bits));
    g3_octets_free(&frame); g3_deframer_free(&deframer);
}

/* Signals take no memory, so none is refused. */
static void signals(size_t length)
{
    g3_dis dis = {1, G3_V17, 1, 2432, 1, 1};
    g3_wish wish = {G3_V17, G3_MMR, 256};
    g3_params params = G3_INIT(g3_params);
    g3_signal signal = G3_INIT(g3_signal);
    uint64_t count = 0;
    uint32_t why = 0;
    unsigned long before = grown;
    g3_status read = g3_signal_read(line, length, &signal);
    if (read != G3_BAD_ADDRESS) printf("growth %lu refused: flags were read: %u\n", refused, read), bad = 1;
    if (g3_agree(&dis, &wish, 1728, 1, &params, &why) != G3_OK) printf("growth %lu refused: nothing is agreed\n", refused), bad = 1;
    signal.kind = G3_DCS, signal.dcs = params.dcs;
    if (g3_signal_write(&signal, G3_CALLER, 1, again, sizeof again, &count) != G3_OK || g3_signal_read(again, count, &signal) != G3_OK
        || memcmp(&signal.dcs, &params.dcs, sizeof params.dcs) != 0)
        printf("growth %lu refused: another DCS\n", refused), bad = 1;
    if (grown != before) printf("signals take memory\n"), bad = 1;
}

/* The block of a handle with a page hasn't the room that a terminal needs. */
static void sizes(void)
{
    g3_page page = G3_EMPTY;
    DOES(g3_page_new(&page, 8, 0));
    if (asked > 1000) printf("growth %lu refused: a page has a block of %zu octets\n", refused, asked), bad = 1;
    g3_page_free(&page);
}

/* A station hears the frames of a burst by their contents. */
static void hear_frames(g3_terminal *to, size_t size)
{
    g3_deframer deframer = G3_EMPTY;
    uint8_t content[300];
    uint64_t length = 0;
    DOES(g3_deframer_new(&deframer));
    DOES(g3_deframer_feed(&deframer, again, size));
    while (g3_deframer_next(&deframer, content, sizeof content, &length) == G3_OK) {
        g3_status status = g3_terminal_hear_frame(to, content, length);
        if (status == G3_NO_MEMORY) status = g3_terminal_hear_frame(to, content, length);
        if (status != G3_OK && status != G3_FRAME_LOST) printf("growth %lu refused: a frame: %u\n", refused, status), bad = 1;
    }
    g3_deframer_free(&deframer);
}

/* What a terminal tells of the call takes no memory. */
static void tells(g3_terminal *of)
{
    g3_progress far = G3_INIT(g3_progress);
    g3_params params = G3_INIT(g3_params);
    g3_signal peer = G3_INIT(g3_signal);
    unsigned long before = grown;
    g3_status known = G3_OK;
    DOES(g3_terminal_progress(of, &far));
    if ((known = g3_terminal_peer(of, &peer)) != g3_terminal_params(of, &params) && known != G3_OK)
        printf("growth %lu refused: a group of nobody: %u\n", refused, known), bad = 1;
    if (grown != before) printf("what is told takes memory\n"), bad = 1;
}

/* A terminal with nothing to send takes no memory to say so: it answers the same while every growth is refused. */
static void is_through(g3_terminal *of)
{
    g3_octets octets = G3_EMPTY;
    g3_burst burst = G3_INIT(g3_burst);
    unsigned long before = grown, was = refused;
    refused = grown + 1;
    g3_status status = g3_terminal_next_burst(of, &octets, &burst);
    if (status != G3_NOTHING || grown != before) printf("nothing is sent: %u, %lu growths\n", status, grown - before), bad = 1;
    grown = before, refused = was;
}

/* One station says its turn to the other one. Tells how many bursts there were. */
static unsigned say(g3_terminal *from, g3_terminal *to, int by_frames)
{
    unsigned said = 0;
    for (;; said++) {
        g3_octets octets = G3_EMPTY;
        g3_burst burst = G3_INIT(g3_burst);
        g3_state state = G3_INIT(g3_state);
        uint64_t size = 0;
        g3_status status = g3_terminal_next_burst(from, &octets, &burst);
        if (status == G3_NO_MEMORY) status = g3_terminal_next_burst(from, &octets, &burst);
        if (status == G3_NOTHING) return is_through(from), said;
        if (status != G3_OK) printf("growth %lu refused: a burst: %u\n", refused, status), bad = 1;
        DOES(g3_octets_copy(&octets, again, sizeof again, &size));
        g3_octets_free(&octets);
        DOES(g3_terminal_state(to, &state));
        if (burst.check) {
            if (state.listens == G3_HEARS_CHECK) DOES(g3_terminal_hear_training(to, again, size));
            continue;
        }
        if (by_frames) {
            hear_frames(to, size);
            continue;
        }
        status = g3_terminal_hear(to, again, size);
        if (status == G3_NO_MEMORY) status = g3_terminal_hear(to, again, size);
        if (status != G3_OK && status != G3_FRAME_LOST) printf("growth %lu refused: hearing: %u\n", refused, status), bad = 1;
    }
}

/* Holds the page that has come, if one has, and says that it is stored. */
static void hold(g3_terminal *of, g3_page *page)
{
    g3_status status = g3_terminal_hold(of, page);
    if (status == G3_NO_MEMORY) status = g3_terminal_hold(of, page);
    if (status == G3_OK) DOES(g3_terminal_set_busy(of, 0));
    else if (status != (page->at == NULL ? G3_NOTHING : G3_FULL_HANDLE)) printf("growth %lu refused: hold: %u\n", refused, status), bad = 1;
}

/* A call, by octets or by frames; by frames its page is held. */
static void calls(int by_frames)
{
    g3_page page = G3_EMPTY, stored = G3_EMPTY;
    g3_document document = G3_EMPTY;
    g3_terminal caller = G3_EMPTY, answerer = G3_EMPTY;
    g3_caps caps = {G3_V17, 1, 1, 2432, by_frames ? 1 : 2};
    g3_wish wish = {G3_V17, G3_MH, 64};
    g3_state here = G3_INIT(g3_state), there = here;
    uint64_t count = 0, now = 0;
    DOES(g3_page_new(&page, 1728, 1));
    for (unsigned row = 0; row < 6; row++) DOES(g3_page_push_row(&page, image + row, 216));
    DOES(g3_document_new(&document));
    DOES(g3_document_push(&document, &page));
    DOES(g3_answerer_new(&answerer, &caps));
    DOES(g3_caller_new(&caller, &document, &wish));
    DOES(g3_terminal_most_seconds(&caller, 600));
    for (unsigned turns = 0; turns < 60 && (here.end == 0 || there.end == 0); turns++) {
        unsigned said = say(&answerer, &caller, 0);
        said += say(&caller, &answerer, by_frames);
        if (by_frames) hold(&answerer, &stored);
        tells(&caller);
        tells(&answerer);
        DOES(g3_terminal_state(&caller, &here));
        DOES(g3_terminal_state(&answerer, &there));
        DOES(g3_terminal_tick(&caller, now, said == 0 ? G3_QUIET : G3_CARRIER));
        DOES(g3_terminal_tick(&answerer, now, said == 0 ? G3_QUIET : G3_CARRIER));
        now += said == 0 ? 3000 : 1000;
    }
    if (here.end != G3_END_NORMAL || there.end != G3_END_NORMAL || here.pages != 1 || (int)there.pages != !by_frames)
        printf("growth %lu refused: ends %u %u\n", refused, here.end, there.end), bad = 1;
    if (!by_frames) DOES(g3_terminal_take_page(&answerer, &stored));
    for (unsigned row = 0; row < 6; row++) {
        DOES(g3_page_row(&stored, row, again, sizeof again, &count));
        if (memcmp(again, image + row, 216) != 0) printf("growth %lu refused: another row\n", refused), bad = 1;
    }
    g3_page_free(&page); g3_page_free(&stored); g3_document_free(&document); g3_terminal_free(&caller); g3_terminal_free(&answerer);
}

/* A call of two pages whose line is lost once the first one is confirmed: the document comes back, which takes no memory, and another call
 * sends the second one alone. Counts the growths of each of the two calls, of a document that is coded before, or isn't. */
static void redials(int is_coded, unsigned long growths[2])
{
    g3_page page = G3_EMPTY;
    g3_document document = G3_EMPTY;
    g3_terminal caller = G3_EMPTY, answerer = G3_EMPTY;
    g3_caps caps = {G3_V17, 1, 1, 2432, 2};
    g3_wish wish = {G3_V17, G3_MMR, 256};
    g3_state here = G3_INIT(g3_state);
    uint64_t first = 0, count = 0, confirmed = 0;
    DOES(g3_document_new(&document));
    for (unsigned number = 0; number < 2; number++) {
        DOES(g3_page_new(&page, 1728, 1));
        for (unsigned row = 0; row < 6; row++) DOES(g3_page_push_row(&page, image + 20 * number + row, 216));
        DOES(g3_document_push(&document, &page));
    }
    if (is_coded) DOES(g3_document_code(&document, G3_MMR));
    for (unsigned call = 0; call < 2; call++) {
        DOES(g3_answerer_new(&answerer, &caps));
        if (call == 0) DOES(g3_caller_new(&caller, &document, &wish));
        else DOES(g3_caller_new_from(&caller, &document, first, &wish));
        here.end = 0;
        growths[call] = grown;
        for (uint64_t now = 0; now < 400000 && here.end == 0; now += 3000) {
            unsigned said = say(&answerer, &caller, 0);
            said += say(&caller, &answerer, 0);
            DOES(g3_terminal_state(&caller, &here));
            if (call == 0 && here.pages == 1) DOES(g3_terminal_lost(&caller));
            DOES(g3_terminal_state(&caller, &here));
            DOES(g3_terminal_tick(&caller, now, said == 0 ? G3_QUIET : G3_CARRIER));
            DOES(g3_terminal_tick(&answerer, now, said == 0 ? G3_QUIET : G3_CARRIER));
        }
        growths[call] = grown - growths[call];
        DOES(g3_terminal_take_page(&answerer, &page));
        for (unsigned row = 0; row < 6; row++) {
            DOES(g3_page_row(&page, row, again, sizeof again, &count));
            if (memcmp(again, image + 20 * call + row, 216) != 0) printf("growth %lu refused: another row\n", refused), bad = 1;
        }
        unsigned long before = grown;
        g3_status status = g3_terminal_take_document(&caller, &document, &confirmed);
        if (status != G3_OK || grown != before || confirmed != 1 || caller.at != NULL)
            printf("growth %lu refused: no document: %u, %lu\n", refused, status, confirmed), bad = 1;
        DOES(g3_document_pages(&document, &count));
        if (count != 2 - call) printf("growth %lu refused: %lu pages\n", refused, count), bad = 1;
        first += confirmed;
        g3_page_free(&page); g3_terminal_free(&answerer);
    }
    g3_document_free(&document); g3_terminal_free(&caller);
}

int main(int argc, char **argv)
{
    if (argc != 3) return fprintf(stderr, "usage: memory IN.pbm LINE.bits\n"), 2;
    size_t length = load(argv[1], image), bits = load(argv[2], line);
    do {
        long before = blocks;
        grown = 0;
        refused++;
        codes(length, G3_MH);
        codes(length, G3_MMR);
        rows_of(G3_MH);
        rows_of(G3_MMR);
        frames(bits);
        signals(bits);
        sizes();
        calls(0);
        calls(1);
        unsigned long due[2], coded[2];
        redials(0, due);
        redials(1, coded);
        /* a call that is made again grows again */
        for (int call = 0; call < 2 && grown < refused; call++) {
            if (coded[call] >= due[call]) printf("call %d codes a page again: %lu growths\n", call, coded[call]), bad = 1;
        }
        if (blocks != before) printf("growth %lu refused: %ld blocks are left\n", refused, blocks - before), bad = 1;
    } while (grown >= refused);
    printf("growths %lu\n", refused - 1);
    return bad;
}
