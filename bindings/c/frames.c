/* frames LINE.bits: the contents of the good frames of a line's bits, a number and its octets a line, then how many gaps there were of
 * each class. Each content is written as a frame again and found in it. */
#include "g3fax.h"
#include "files.h"
#include <string.h>

/* Whether the frame of a content has the content alone. */
static int comes_back(const uint8_t *content, size_t length)
{
    static uint8_t line[1024], found[300];
    g3_octets frame = G3_EMPTY;
    g3_deframer deframer = G3_EMPTY;
    uint64_t bits = 0, octets = 0, count = 0;
    int is = g3_frame_write(content, length, &frame, &bits) == G3_OK && g3_octets_copy(&frame, line, sizeof line, &octets) == G3_OK
        && octets == (bits + 7) / 8 && g3_deframer_new(&deframer) == G3_OK && g3_deframer_feed(&deframer, line, octets) == G3_OK
        && g3_deframer_next(&deframer, found, sizeof found, &count) == G3_OK && count == length && memcmp(found, content, length) == 0
        && g3_deframer_next(&deframer, found, sizeof found, &count) == G3_NOTHING;
    g3_octets_free(&frame);
    g3_deframer_free(&deframer);
    return is;
}

int main(int argc, char **argv)
{
    static uint8_t content[300];
    g3_deframer deframer = G3_EMPTY;
    g3_counts counts = G3_INIT(g3_counts);
    size_t length = 0, at, piece;
    uint64_t count = 0;
    unsigned number = 0;
    if (argc != 2) return fprintf(stderr, "usage: frames LINE.bits\n"), 2;
    uint8_t *line = read_file(argv[1], &length);
    if (line == NULL) return perror(argv[1]), 1;
    g3_status status = g3_deframer_new(&deframer);
    for (at = 0; status == G3_OK && at < length; at += piece) {
        piece = length - at < 7 ? length - at : 7; /* any pieces give the same */
        status = g3_deframer_feed(&deframer, line + at, piece);
        while (status == G3_OK && g3_deframer_next(&deframer, content, sizeof content, &count) == G3_OK) {
            printf("%u ", ++number);
            for (uint64_t i = 0; i < count; i++) printf("%02x", content[i]);
            printf(comes_back(content, count) ? "\n" : " DOESN'T COME BACK\n");
        }
    }
    if (status == G3_OK) status = g3_deframer_counts(&deframer, &counts);
    printf("good %llu aborted %llu ragged %llu short %llu long %llu damaged %llu\n", (unsigned long long)counts.good,
           (unsigned long long)counts.aborted, (unsigned long long)counts.ragged, (unsigned long long)counts.too_short,
           (unsigned long long)counts.too_long, (unsigned long long)counts.damaged);
    free(line);
    g3_deframer_free(&deframer);
    return status == G3_OK ? 0 : 1;
}
