#include "theirs.h"
#include <stdio.h>
#include <stdlib.h>
#include <string.h>
#include <unistd.h>
#define SPANDSP_EXPOSE_INTERNAL_STRUCTURES
#include <spandsp.h>
#include <tiffio.h>

typedef struct theirs {
    const trial *kind;
    fax_state_t *fax;
    int calls;
    int end;          /* its code of why the call ended; NOT_YET */
    uint32_t millis;
    char file[256];   /* TIFF: the pages that it sends or has stored */
} theirs;
enum { NOT_YET = -1 };

/* The papers as a TIFF file, for a caller; whether it was written. */
static int write_tiff(const trial *kind, const char *name)
{
    TIFF *file = TIFFOpen(name, "w");
    int is_whole = file != NULL;
    for (uint32_t i = 0; is_whole && i < kind->pages; i++) {
        const paper *page = &kind->papers[i];
        TIFFSetField(file, TIFFTAG_IMAGEWIDTH, page->width);
        TIFFSetField(file, TIFFTAG_IMAGELENGTH, page->rows);
        TIFFSetField(file, TIFFTAG_BITSPERSAMPLE, 1);
        TIFFSetField(file, TIFFTAG_SAMPLESPERPIXEL, 1);
        TIFFSetField(file, TIFFTAG_ROWSPERSTRIP, page->rows);
        TIFFSetField(file, TIFFTAG_PHOTOMETRIC, PHOTOMETRIC_MINISWHITE);
        TIFFSetField(file, TIFFTAG_FILLORDER, FILLORDER_LSB2MSB);
        TIFFSetField(file, TIFFTAG_COMPRESSION, COMPRESSION_CCITTFAX4);
        TIFFSetField(file, TIFFTAG_XRESOLUTION, 204.0);
        TIFFSetField(file, TIFFTAG_YRESOLUTION, 196.0);
        TIFFSetField(file, TIFFTAG_RESOLUTIONUNIT, RESUNIT_INCH);
        TIFFSetField(file, TIFFTAG_PAGENUMBER, i, kind->pages);
        is_whole = TIFFWriteEncodedStrip(file, 0, page->pixels, (tmsize_t)page->stride * page->rows) > 0 && TIFFWriteDirectory(file);
    }
    if (file != NULL) TIFFClose(file);
    return is_whole;
}

/* Counts a page of the TIFF file that an answerer has written. */
static void judge_page(const trial *kind, TIFF *file, outcome *out)
{
    uint32_t width = 0, rows = 0;
    uint16_t black = PHOTOMETRIC_MINISWHITE;
    TIFFGetField(file, TIFFTAG_IMAGEWIDTH, &width);
    TIFFGetField(file, TIFFTAG_IMAGELENGTH, &rows);
    TIFFGetField(file, TIFFTAG_PHOTOMETRIC, &black);
    size_t stride = (width + 7) / 8, length = stride * rows;
    uint8_t *pixels = calloc(length + 1, 1);
    for (uint32_t y = 0; pixels != NULL && y < rows; y++) {
        if (TIFFReadScanline(file, pixels + y * stride, y, 0) < 0) width = 0;
    }
    for (size_t i = 0; pixels != NULL && black != PHOTOMETRIC_MINISWHITE && i < length; i++) pixels[i] ^= 255;
    trial_judge(kind, out, width, rows, pixels);
    free(pixels);
}

static void judge_tiff(const trial *kind, const char *name, outcome *out)
{
    TIFF *file = access(name, R_OK) == 0 ? TIFFOpen(name, "r") : NULL;
    if (file == NULL) return;
    do judge_page(kind, file, out);
    while (TIFFReadDirectory(file));
    TIFFClose(file);
}

static void on_end(t30_state_t *t30, void *user, int code)
{
    (void)t30;
    ((theirs *)user)->end = code;
}

static void on_frame(t30_state_t *t30, void *user, int hears, const uint8_t *content, int length)
{
    theirs *it = user;
    (void)t30;
    if (it->kind->tells == NULL) return;
    fprintf(stderr, "%u libspandsp's %s %s %s", it->millis, it->calls ? "caller" : "answerer", hears ? "hears" : "says",
            t30_frametype(content[2]));
    for (int i = 0; i < length && i < 12; i++) fprintf(stderr, " %02x", content[i]);
    fprintf(stderr, "\n");
}

/* What it can do, as ours can. */
static void set_up(theirs *it)
{
    static const int MODEMS[] = {
        [G3_V27TER] = T30_SUPPORT_V27TER, [G3_V29] = T30_SUPPORT_V27TER | T30_SUPPORT_V29,
        [G3_V17] = T30_SUPPORT_V27TER | T30_SUPPORT_V29 | T30_SUPPORT_V17};
    t30_state_t *t30 = fax_get_t30_state(it->fax);
    int t4 = T30_SUPPORT_T4_1D_COMPRESSION, all = t4 | T30_SUPPORT_T4_2D_COMPRESSION | T30_SUPPORT_T6_COMPRESSION;
    fax_set_transmit_on_idle(it->fax, TRUE);
    t30_set_supported_modems(t30, MODEMS[it->kind->modems]);
    t30_set_supported_compressions(t30, it->kind->coding == G3_MMR ? all : t4);
    t30_set_supported_resolutions(t30, T30_SUPPORT_STANDARD_RESOLUTION | T30_SUPPORT_FINE_RESOLUTION | T30_SUPPORT_R8_RESOLUTION);
    t30_set_supported_image_sizes(t30, T30_SUPPORT_215MM_WIDTH | T30_SUPPORT_255MM_WIDTH | T30_SUPPORT_303MM_WIDTH
        | T30_SUPPORT_UNLIMITED_LENGTH | T30_SUPPORT_A4_LENGTH | T30_SUPPORT_B4_LENGTH);
    t30_set_ecm_capability(t30, !it->kind->has_no_correction);
    t30_set_rx_encoding(t30, T4_COMPRESSION_ITU_T6);
    t30_set_phase_e_handler(t30, on_end, it);
    t30_set_real_time_frame_handler(t30, on_frame, it);
    if (it->calls) t30_set_tx_file(t30, it->file, -1, -1);
    else t30_set_rx_file(t30, it->file, -1);
}

static void theirs_step(void *user, const int16_t *in, int16_t *out)
{
    theirs *it = user;
    int16_t copy[SLICE]; /* fax_rx may write into what it reads */
    memcpy(copy, in, sizeof copy);
    memset(out, 0, SLICE * sizeof *out);
    it->millis += SLICE_MILLIS;
    fax_rx(it->fax, copy, SLICE);
    fax_tx(it->fax, out, SLICE);
}

static int theirs_is_over(void *user)
{
    return !t30_call_active(fax_get_t30_state(((theirs *)user)->fax));
}

static const char *theirs_ending(void *user)
{
    const theirs *it = user;
    return it->end == T30_ERR_OK ? "normal" : it->end == NOT_YET ? "no end" : t30_completion_code_to_str(it->end);
}

static void theirs_leave(void *user, outcome *out)
{
    theirs *it = user;
    t30_state_t *t30 = fax_get_t30_state(it->fax);
    t30_stats_t stats;
    t30_get_transfer_statistics(t30, &stats);
    if (it->calls) out->confirmed = (uint64_t)stats.pages_tx;
    t30_terminate(t30); /* it closes its file */
    if (!it->calls) judge_tiff(it->kind, it->file, out);
    fax_free(it->fax);
    unlink(it->file);
    free(it);
}

int trial_theirs(party *out, const trial *kind, int calls, const char *folder)
{
    theirs *it = calloc(1, sizeof *it);
    if (it == NULL) return 0;
    it->kind = kind;
    it->calls = calls;
    it->end = NOT_YET;
    TIFFSetWarningHandler(NULL);
    snprintf(it->file, sizeof it->file, "%s/%s.tif", folder, calls ? "sent" : "stored");
    unlink(it->file);
    if (!calls || write_tiff(kind, it->file)) it->fax = fax_init(NULL, calls);
    if (it->fax == NULL) {
        free(it);
        return 0;
    }
    set_up(it);
    *out = (party){it, theirs_step, theirs_is_over, theirs_ending, theirs_leave};
    return 1;
}
