/* libspandsp's T.30 without its modems, as a station that reads and writes the lines of docs/STATION.md:

       cc -O2 -o spandsp_station spandsp_station.c -lspandsp -ltiff        (Debian's libspandsp-dev and libtiff-dev)
       ./bench.py --caller-command "./spandsp_station --call" --answerer-command "./spandsp_station --answer" DIR

   The pages of a caller are those of its last word, a PBM file; an answerer stores them in `--out DIR`, as in.tif. Frames are made and read by
   its own HDLC. What a burst brings is told its T.30 in pieces of 20 ms, as its modems would. With SPANDSP_LOG set it logs. */

#include <stdint.h>
#include <stdio.h>
#include <stdlib.h>
#include <string.h>
#include <inttypes.h>
#include <stdbool.h>
#include <tiffio.h>
#include <unistd.h>
#define SPANDSP_EXPOSE_INTERNAL_STRUCTURES
#include <spandsp.h>

enum { STEP = 20, SAMPLES = 8, SILENCE = 75, MOST_BITS = 4000000 };

typedef struct { int type, rate, use_hdlc, pause, is_on; } modem;

static modem tx, rx;
static hdlc_tx_state_t sender;
static hdlc_rx_state_t receiver;
static t30_state_t *t30;
static unsigned char bits[MOST_BITS / 8];
static long now;
static int is_over, result;

/* The name of a carrier in docs/STATION.md. */
static const char *carrier(int type, int rate) {
    static char name[32];
    if (type == T30_MODEM_V21) return "v21";
    snprintf(name, sizeof name, "%s-%d", type == T30_MODEM_V27TER ? "v27ter" : type == T30_MODEM_V29 ? "v29" : "v17", rate);
    return name;
}

static void set_rx(void *user, int type, int rate, int short_train, int use_hdlc) {
    (void)user, (void)short_train;
    rx = (modem){type, rate, use_hdlc, 0, 1};
    if (use_hdlc) hdlc_rx_init(&receiver, 0, 1, 5, t30_hdlc_accept, t30);
}

static void set_tx(void *user, int type, int rate, int short_train, int use_hdlc) {
    (void)user;
    tx = (modem){type, rate, use_hdlc, short_train, type != T30_MODEM_NONE && type != T30_MODEM_CNG};
    if (use_hdlc) hdlc_tx_flags(&sender, type == T30_MODEM_V21 ? 37 : rate / 40);
}

static void frame(void *user, const uint8_t *content, int length) {
    (void)user;
    if (length == -1) hdlc_tx_restart(&sender);
    else hdlc_tx_frame(&sender, content, length);
}

static void underflow(void *user) {
    (void)user;
    t30_front_end_status(t30, T30_FRONT_END_SEND_STEP_COMPLETE);
}

static void ends(t30_state_t *s, void *user, int code) {
    (void)s, (void)user;
    result = code;
}

/* Prints a burst, and lets its time pass. */
static void print(const modem *as, const char *kind, int count) {
    printf("tx %s %s %d ", carrier(as->type, as->rate), kind, count);
    for (int at = 0; at < (count + 7) / 8; at++) printf("%02X", bits[at]);
    putchar('\n');
    now += (long)count * 1000 / (as->type == T30_MODEM_V21 ? 300 : as->rate) + SILENCE;
}

/* Sends what there is to send: whole bursts, after each of which T.30 may have another one. */
static void send_all(void) {
    while (tx.is_on && tx.type != T30_MODEM_DONE) {
        modem as = tx;
        int count = 0;
        if (as.type == T30_MODEM_PAUSE) now += as.pause;
        else if (as.type == T30_MODEM_CED) now += 1000;
        else if (as.use_hdlc) {
            memset(bits, 0, sizeof bits);
            for (int bit; count < MOST_BITS && (bit = hdlc_tx_get_bit(&sender)) != SIG_STATUS_END_OF_DATA; count++)
                bits[count / 8] |= (bit & 1) << count % 8;
            print(&as, "hdlc", count);
        } else {
            count = 8 * t30_non_ecm_get_chunk(t30, bits, sizeof bits);
            print(&as, "raw", count);
        }
        tx.is_on = 0;
        t30_front_end_status(t30, T30_FRONT_END_SEND_STEP_COMPLETE);
    }
    is_over = tx.type == T30_MODEM_DONE;
}

/* Lets the time pass until then. What is sent while the line is quiet takes its own time. */
static void pass(long until) {
    for (; now < until && !is_over; now += STEP) {
        t30_timer_update(t30, STEP * SAMPLES);
        if (tx.is_on) return;
    }
}

static void put(int is_v21, int bit) {
    if (is_v21 || rx.use_hdlc) hdlc_rx_put_bit(&receiver, bit);
    else t30_non_ecm_put_bit(t30, bit);
}

/* A burst is heard, from its carrier's begin to its end, if it is by V.21 or by the carrier that T.30 listens to. */
static void hear(const char *name, int count, const char *digits) {
    int is_v21 = strcmp(name, "v21") == 0, rate = is_v21 ? 300 : atoi(strchr(name, '-') + 1), piece = rate * STEP / 1000;
    int is_heard = is_v21 || strcmp(name, carrier(rx.type, rx.rate)) == 0;
    if (is_heard) put(is_v21, SIG_STATUS_CARRIER_UP);
    if (is_heard && !is_v21) put(is_v21, SIG_STATUS_TRAINING_SUCCEEDED);
    for (int at = 0; at < count && !tx.is_on; at++) {
        unsigned octet = 0;
        sscanf(digits + at / 8 * 2, "%2x", &octet);
        if (is_heard) put(is_v21, octet >> at % 8 & 1);
        if (at % piece == piece - 1) {
            t30_timer_update(t30, STEP * SAMPLES);
            now += STEP;
        }
    }
    if (is_heard && !tx.is_on) put(is_v21, SIG_STATUS_CARRIER_DOWN);
}

/* A line says what was on the line until its time. */
static void take(char *line) {
    char word[16], name[32], kind[8];
    long at = 0;
    int count = 0, digits = 0;
    if (sscanf(line, "%15s %ld", word, &at) < 2) return;
    if (strcmp(word, "rx") == 0) {
        if (sscanf(line, "rx %*d %31s %7s %d %n", name, kind, &count, &digits) == 3) hear(name, count, line + digits);
        now = now > at ? now : at;
    } else if (strcmp(word, "end") == 0 || strcmp(word, "stop") == 0) {
        t30_terminate(t30);
        is_over = 1;
    } else {
        pass(at);
    }
}

/* The images of a PBM file, as a TIFF file. */
static void make_tiff(const char *from, const char *to) {
    FILE *file = fopen(from, "rb");
    TIFF *tiff = TIFFOpen(to, "w");
    int width, height;
    if (!file || !tiff) exit(2);
    while (fscanf(file, "P4 %d %d", &width, &height) == 2 && fgetc(file) != EOF) {
        size_t octets = (width + 7) / 8;
        unsigned char row[octets];
        TIFFSetField(tiff, TIFFTAG_IMAGEWIDTH, width), TIFFSetField(tiff, TIFFTAG_IMAGELENGTH, height);
        TIFFSetField(tiff, TIFFTAG_BITSPERSAMPLE, 1), TIFFSetField(tiff, TIFFTAG_SAMPLESPERPIXEL, 1);
        TIFFSetField(tiff, TIFFTAG_COMPRESSION, COMPRESSION_CCITTFAX4), TIFFSetField(tiff, TIFFTAG_ROWSPERSTRIP, height);
        TIFFSetField(tiff, TIFFTAG_PHOTOMETRIC, PHOTOMETRIC_MINISWHITE), TIFFSetField(tiff, TIFFTAG_RESOLUTIONUNIT, RESUNIT_INCH);
        TIFFSetField(tiff, TIFFTAG_XRESOLUTION, 204.0), TIFFSetField(tiff, TIFFTAG_YRESOLUTION, 98.0);
        for (int at = 0; at < height && fread(row, 1, octets, file) == octets; at++) TIFFWriteScanline(tiff, row, at, 0);
        TIFFWriteDirectory(tiff);
    }
    TIFFClose(tiff);
    fclose(file);
}

int main(int count, char **words) {
    int calls = count > 1 && strcmp(words[1], "--call") == 0;
    static char line[800000], path[4096];
    t30_stats_t stats;
    if (count < 3) return 2;
    hdlc_tx_init(&sender, 0, 2, 0, underflow, NULL);
    t30 = malloc(sizeof *t30);
    t30_init(t30, calls, set_rx, NULL, set_tx, NULL, frame, NULL);
    if (getenv("SPANDSP_LOG")) span_log_set_level(&t30->logging, SPAN_LOG_SHOW_SEVERITY | SPAN_LOG_SHOW_PROTOCOL | SPAN_LOG_FLOW);
    t30_set_ecm_capability(t30, 1);
    t30_set_supported_compressions(t30, T30_SUPPORT_T4_1D_COMPRESSION | T30_SUPPORT_T4_2D_COMPRESSION | T30_SUPPORT_T6_COMPRESSION);
    t30_set_phase_e_handler(t30, ends, NULL);
    snprintf(path, sizeof path, calls ? "%s.%ld.tif" : "%s/in.tif", words[count - 1], (long)getpid());
    if (calls) make_tiff(words[count - 1], path), t30_set_tx_file(t30, path, -1, -1);
    else t30_set_rx_file(t30, path, -1);
    while (!is_over && fgets(line, sizeof line, stdin)) {
        take(line);
        if (!is_over) send_all();
        puts(is_over ? "done" : "wait");
        fflush(stdout);
    }
    t30_get_transfer_statistics(t30, &stats);
    if (calls) remove(path);
    fprintf(stderr, "end %s %s %d\n", t30_completion_code_to_str(result), calls ? "confirmed" : "pages", calls ? stats.pages_tx : stats.pages_rx);
    return result != T30_ERR_OK;
}
