/* What wrong use of pages, of rows in memory and of frames answers. Prints nothing and ends with 0 where each status is the right one. */
#include "statuses.h"

/* The octets at an address are those of the handle. */
static void copies(const g3_octets *from, const uint8_t *data, uint64_t length)
{
    static uint8_t copied[1 << 16];
    uint64_t count = 0;
    IS(G3_OK, g3_octets_copy(from, copied, sizeof copied, &count));
    IS(1, count == length && memcmp(copied, data, count) == 0);
}

static void pages(void)
{
    g3_page a = G3_EMPTY;
    g3_octets code = G3_EMPTY;
    g3_size size = G3_INIT(g3_size);
    const uint8_t *data = octets;
    uint64_t n = 0, length = 0;
    g3_page_free(&a); g3_page_free(&a); g3_page_free(NULL);
    IS(G3_EMPTY_HANDLE, g3_page_size(&a, &size));
    IS(G3_EMPTY_HANDLE, g3_octets_data(&code, &data, &n));
    IS(G3_EMPTY_HANDLE, g3_octets_data(NULL, &data, &n));
    IS(G3_EMPTY_HANDLE, g3_octets_len(&code, &n));
    IS(G3_EMPTY_HANDLE, g3_octets_len(NULL, &n));
    IS(G3_EMPTY_HANDLE, g3_page_push_row(NULL, octets, 216));
    IS(G3_BAD_WIDTH, g3_page_new(&a, 0, 1));
    IS(G3_BAD_WIDTH, g3_page_new(&a, 2433, 1));
    IS(G3_OK, g3_page_new(&a, 1728, 1));
    IS(G3_FULL_HANDLE, g3_page_new(&a, 1728, 1));
    IS(G3_OTHER_HANDLE, g3_deframer_feed((g3_deframer *)&a, octets, 1)); /* a compiler refuses this without the cast */
    IS(G3_BAD_LENGTH, g3_page_push_row(&a, octets, 215));
    IS(G3_NO_ADDRESS, g3_page_push_row(&a, NULL, 216));
    IS(G3_NO_ROWS, g3_page_encode(&a, G3_MMR, G3_MSB_FIRST, &code));
    IS(G3_NO_ROWS, g3_page_write_pbm(&a, &code));
    IS(G3_OK, g3_page_push_row(&a, octets, 216));
    IS(G3_BAD_CHOICE, g3_page_encode(&a, 3, G3_MSB_FIRST, &code));
    IS(G3_BAD_CHOICE, g3_page_encode(&a, G3_MMR, 2, &code));
    IS(G3_NO_ROOM, g3_page_row(&a, 0, octets, 215, &n));
    IS(216, (g3_status)n);
    IS(G3_NOTHING, g3_page_row(&a, 1, octets, 400, &n));
    IS(G3_NO_ADDRESS, g3_page_row(&a, 0, octets, 400, NULL));
    IS(G3_NO_ADDRESS, g3_page_size(&a, NULL));
    SIZES(size, g3_page_size(&a, &size));
    IS(G3_OK, g3_page_size(&a, &size));
    IS(1, size.width == 1728 && size.rows == 1 && size.fine == 1);
    for (uint32_t row = 1; row < 20000; row++) IS(G3_OK, g3_page_push_row(&a, octets, 216));
    IS(G3_TOO_MANY_ROWS, g3_page_push_row(&a, octets, 216));
    IS(G3_EMPTY_HANDLE, g3_page_encode(&a, G3_MMR, G3_MSB_FIRST, NULL));
    IS(G3_OK, g3_page_encode(&a, G3_MMR, G3_MSB_FIRST, &code));
    IS(G3_FULL_HANDLE, g3_page_encode(&a, G3_MMR, G3_MSB_FIRST, &code));
    IS(G3_OTHER_HANDLE, g3_page_size((g3_page *)&code, &size));
    IS(G3_NO_ROOM, g3_octets_copy(&code, NULL, 0, &n));
    IS(G3_NO_ADDRESS, g3_octets_data(&code, NULL, &n));
    IS(G3_NO_ADDRESS, g3_octets_data(&code, &data, NULL));
    IS(G3_OTHER_HANDLE, g3_octets_data((g3_octets *)&a, &data, &n));
    IS(G3_OTHER_HANDLE, g3_octets_len((g3_octets *)&a, &n));
    IS(G3_NO_ADDRESS, g3_octets_len(&code, NULL));
    IS(1, data == octets); /* it is as it was */
    IS(G3_OK, g3_octets_data(&code, &data, &length));
    IS(1, length == n && g3_octets_copy(&code, octets, sizeof octets, &n) == G3_NO_ROOM);
    for (uint32_t row = 0; row < 2; row++) copies(&code, data, length);
    g3_octets_free(&code); g3_page_free(&a); g3_page_free(&a);
    IS(G3_EMPTY_HANDLE, g3_page_size(&a, &size));
}

static void rasters(void)
{
    g3_page a = G3_EMPTY;
    uint64_t n = 0;
    g3_raster two = {3, 9, 2, 0}, none = {2, 9, 0, 0}, wide = {400, 2433, 1, 0}, high = {2, 9, 20001, 0}, close = {1, 9, 1, 0};
    g3_raster far = {UINT64_MAX, 9, 20000, 0}, one = {UINT64_MAX, 9, 1, 0};
    SPARES(wide.spare, g3_page_read_raster(octets, 400, &wide, &a));
    IS(G3_BAD_WIDTH, g3_page_read_raster(octets, 400, &wide, &a));
    IS(G3_TOO_MANY_ROWS, g3_page_read_raster(octets, 400, &high, &a));
    IS(G3_BAD_LENGTH, g3_page_read_raster(octets, 400, &close, &a));
    IS(G3_BAD_LENGTH, g3_page_read_raster(octets, 400, &far, &a));
    IS(G3_BAD_LENGTH, g3_page_read_raster(octets, 4, &two, &a));
    IS(G3_NO_ADDRESS, g3_page_read_raster(NULL, 5, &two, &a));
    IS(G3_NO_ADDRESS, g3_page_read_raster(octets, 5, NULL, &a));
    IS(G3_EMPTY_HANDLE, g3_page_read_raster(octets, 5, &two, NULL));
    IS(G3_EMPTY_HANDLE, g3_page_write_raster(&a, 2, octets, 400, &n));
    IS(G3_OK, g3_page_read_raster(octets, 5, &two, &a));
    IS(G3_FULL_HANDLE, g3_page_read_raster(octets, 5, &two, &a));
    IS(G3_BAD_LENGTH, g3_page_write_raster(&a, 1, octets, 400, &n));
    IS(G3_NO_ADDRESS, g3_page_write_raster(&a, 2, octets, 400, NULL));
    IS(G3_NO_ROOM, g3_page_write_raster(&a, 4, octets, 5, &n));
    IS(6, (g3_status)n);
    IS(G3_OK, g3_page_write_raster(&a, 4, octets, 6, &n));
    IS(G3_NO_ROOM, g3_page_write_raster(&a, UINT64_MAX, octets, 400, &n));
    IS(1, n == UINT64_MAX);
    g3_page_free(&a);
    IS(G3_OK, g3_page_read_raster(NULL, 0, &none, &a));
    IS(G3_OK, g3_page_write_raster(&a, 2, NULL, 0, &n));
    IS(0, (g3_status)n);
    g3_page_free(&a);
    IS(G3_OK, g3_page_read_raster(octets, 2, &one, &a));
    IS(G3_OK, g3_page_write_raster(&a, UINT64_MAX, octets, 2, &n));
    IS(2, (g3_status)n);
    g3_page_free(&a);
}

/* A page of T.4 of two white rows of 8 pixels, whole, without its end, and with a run that is too long in its second row. */
static void salvaged(void)
{
    static const char text[] = "000000000001" "10011" "000000000001" "10011" "000000000001" "000000000001" "000000000001" "000000000001"
                               "000000000001" "000000000001";
    const g3_code mh = {.coding = G3_MH, .order = G3_MSB_FIRST, .width = 8};
    g3_page a = G3_EMPTY;
    g3_size size = G3_INIT(g3_size);
    uint8_t code[16] = {0};
    uint32_t fault = 77;
    uint64_t place = 77;
    for (size_t at = 0; text[at] != 0; at++) code[at / 8] |= (uint8_t)((text[at] - '0') << (7 - at % 8));
    IS(G3_OK, g3_page_salvage(code, sizeof code, &mh, &a, &fault, &place));
    IS(G3_OK, g3_page_size(&a, &size));
    IS(1, size.rows == 2 && fault == G3_OK && place == 12 * 8 + 2 * 5);
    g3_page_free(&a);
    IS(G3_OK, g3_page_salvage(code, 4, &mh, &a, &fault, &place)); /* three bits of the second row's code */
    IS(G3_OK, g3_page_size(&a, &size));
    IS(1, size.rows == 1 && fault == G3_TRUNCATED && place == 29);
    g3_page_free(&a);
    code[3] |= 0x02; /* the second row begins 11011, a white run of 64 pixels */
    IS(G3_OK, g3_page_salvage(code, sizeof code, &mh, &a, &fault, &place));
    IS(G3_OK, g3_page_size(&a, &size));
    IS(1, size.rows == 1 && fault == G3_RUN_TOO_LONG && place == 29);
    g3_page_free(&a);
}

static void coded(void)
{
    g3_page a = G3_EMPTY;
    uint64_t place = 77;
    uint32_t fault = 77;
    g3_code odd = {3, G3_MSB_FIRST, 8, 0}, other = {G3_MH, 2, 8, 0}, wide = {G3_MH, G3_MSB_FIRST, 2433, 0};
    g3_code mh = {G3_MH, G3_MSB_FIRST, 8, 0}, mmr = {G3_MMR, G3_MSB_FIRST, 8, 0};
    SPARES(odd.spare, g3_page_decode(octets, 4, &odd, &a, &place));
    SPARES(odd.spare, g3_page_salvage(octets, 4, &odd, &a, &fault, &place));
    SPARES(odd.spare, g3_page_repair(octets, 4, &odd, &a, &place));
    SPARES(odd.spare, g3_page_next(octets, 4, &odd, 0, &place));
    IS(G3_BAD_CHOICE, g3_page_decode(octets, 4, &odd, &a, &place));
    IS(G3_BAD_CHOICE, g3_page_decode(octets, 4, &other, &a, &place));
    IS(G3_BAD_WIDTH, g3_page_decode(octets, 4, &wide, &a, &place));
    IS(G3_NO_ROWS, g3_page_decode(NULL, 0, &mh, &a, &place));
    IS(G3_NO_ADDRESS, g3_page_decode(octets, 4, NULL, &a, &place));
    IS(G3_NO_ADDRESS, g3_page_decode(NULL, 4, &mh, &a, &place));
    IS(G3_BAD_CHOICE, g3_page_repair(octets, 4, &mmr, &a, &place));
    IS(G3_NO_ROWS, g3_page_repair(octets, 4, &mh, &a, &place));
    IS(G3_NO_IMAGE, g3_page_read_pbm(octets, 0, 0, &a, &place));
    IS(G3_BAD_HEADER, g3_page_read_pbm(octets, 4, 0, &a, &place));
    place = 77;
    IS(G3_BAD_CHOICE, g3_page_salvage(octets, 4, &odd, &a, &fault, &place));
    IS(G3_BAD_WIDTH, g3_page_salvage(octets, 4, &wide, &a, &fault, &place));
    IS(G3_NO_ADDRESS, g3_page_salvage(octets, 4, &mh, &a, NULL, &place));
    IS(G3_NO_ADDRESS, g3_page_salvage(octets, 4, &mh, &a, &fault, NULL));
    IS(1, fault == 77 && place == 77 && a.at == NULL);
    IS(G3_OK, g3_page_salvage(octets, 4, &mh, &a, &fault, &place));
    IS(1, fault == G3_NO_ROWS && place == 0);
    IS(G3_FULL_HANDLE, g3_page_salvage(octets, 4, &mh, &a, &fault, &place));
    g3_page_free(&a);
    salvaged();
    IS(G3_OK, g3_page_new(&a, 8, 0));
    IS(G3_FULL_HANDLE, g3_page_decode(octets, 4, &mh, &a, &place));
    g3_page_free(&a);
}

/* Puts a bit after those that are there. */
static void put(uint8_t *to, uint64_t *count, int bit)
{
    to[*count / 8] |= (uint8_t)(bit << (7 - *count % 8));
    ++*count;
}

/* Octets with two pages of T.4, each of one row of 8 white pixels, the second one from the bit after the first on; 89 bits each. */
static void join(uint8_t to[24])
{
    uint64_t count = 0;
    for (int page = 0; page < 2; page++) {
        for (int bit = 1; bit <= 12; bit++) put(to, &count, bit == 12);
        for (int bit = 0; bit < 5; bit++) put(to, &count, 0x13 >> (4 - bit) & 1);
        for (int bit = 1; bit <= 72; bit++) put(to, &count, bit % 12 == 0);
    }
}

static void identified(void)
{
    g3_found found = G3_INIT(g3_found);
    uint8_t two[24] = {0}, white[8] = {0x80, 0x08, 0x00, 0x80, 0x80};
    IS(G3_NO_ADDRESS, g3_identify(two, 24, NULL));
    IS(G3_NO_ADDRESS, g3_identify(NULL, 24, &found));
    SIZES(found, g3_identify(two, 24, &found));
    memset(found.format, 0x5A, sizeof found.format);
    IS(G3_OK, g3_identify(NULL, 0, &found));
    IS(1, found.kind == G3_FOUND_NOTHING && found.place == 0 && found.width == 0 && found.rows == 0 && found.format[0] == 0);
    IS(G3_OK, g3_identify((const uint8_t *)"\x7e\x7e\x7e", 3, &found));
    IS(1, found.kind == G3_FOUND_FORMAT && found.length == 27 && strcmp(found.format, "bits of a line (HDLC flags)") == 0);
    IS(1, found.format[28] == 0x5A); /* no octet is written after the name and its 0 */
    IS(G3_OK, g3_identify(white, 4, &found)); /* a white row of T.6, as wide as one likes */
    IS(1, found.kind == G3_FOUND_SEVERAL && found.length == 0 && found.format[0] == 0);
    join(two);
    IS(G3_OK, g3_identify(two, 24, &found));
    IS(1, found.kind == G3_FOUND_PAGE && found.coding == G3_MH && found.order == G3_MSB_FIRST && found.width == 8);
    IS(1, found.place == 89 && found.rows == 1 && found.fault == 0 && found.repaired == 0 && found.length == 0);
}

static void files(void)
{
    g3_page a = G3_EMPTY;
    g3_code odd = {3, G3_MSB_FIRST, 8, 0}, other = {G3_MH, 2, 8, 0};
    g3_code mh = {G3_MH, G3_MSB_FIRST, 8, 0}, mmr = {G3_MMR, G3_MSB_FIRST, 8, 0};
    uint64_t next = 77, place = 0;
    uint8_t two[24] = {0}, same[24], white[8] = {0x80, 0x08, 0x00, 0x80, 0, 0, 0x80, 0x08};
    join(two);
    memcpy(same, two, sizeof same);
    IS(G3_NO_ADDRESS, g3_page_next(two, 24, NULL, 89, &next));
    IS(G3_NO_ADDRESS, g3_page_next(NULL, 24, &mh, 89, &next));
    IS(G3_NO_ADDRESS, g3_page_next(two, 24, &mh, 89, NULL));
    IS(G3_BAD_CHOICE, g3_page_next(two, 24, &odd, 89, &next));
    IS(G3_BAD_CHOICE, g3_page_next(two, 24, &other, 89, &next));
    IS(G3_NOTHING, g3_page_next(two, 24, &mh, 178, &next));
    IS(G3_NOTHING, g3_page_next(two, 24, &mh, UINT64_MAX, &next));
    IS(G3_NOTHING, g3_page_next(NULL, 0, &mmr, 0, &next));
    IS(1, next == 77 && memcmp(two, same, sizeof same) == 0);
    IS(G3_OK, g3_page_next(two, 24, &mh, 89, &next));
    same[11] = 0; /* where the last EOL of the first page had its 1 */
    IS(1, next == 89 && memcmp(two, same, sizeof same) == 0);
    IS(G3_OK, g3_page_decode(two + next / 8, 24 - next / 8, &mh, &a, &place));
    IS(90, (g3_status)place);
    g3_page_free(&a);
    memcpy(same, white, sizeof white);
    IS(G3_OK, g3_page_next(white, 8, &mmr, 25, &next));
    IS(1, next == 48 && memcmp(white, same, sizeof white) == 0);
    IS(G3_NOTHING, g3_page_next(white, 6, &mmr, 25, &next));
}

static void frames(void)
{
    g3_deframer d = G3_EMPTY;
    g3_octets frame = G3_EMPTY;
    g3_counts counts = G3_INIT(g3_counts);
    uint64_t n = 0;
    IS(G3_EMPTY_HANDLE, g3_deframer_feed(&d, octets, 1));
    IS(G3_OK, g3_deframer_new(&d));
    IS(G3_NO_ROOM, g3_deframer_next(&d, octets, 299, &n));
    IS(G3_NOTHING, g3_deframer_next(&d, octets, 300, &n));
    IS(G3_NO_ADDRESS, g3_deframer_counts(&d, NULL));
    SIZES(counts, g3_deframer_counts(&d, &counts));
    IS(G3_OK, g3_deframer_counts(&d, &counts));
    IS(0, (g3_status)counts.good);
    IS(G3_BAD_LENGTH, g3_frame_write(octets, 2, &frame, &n));
    IS(G3_BAD_LENGTH, g3_frame_write(octets, 301, &frame, &n));
    IS(G3_OK, g3_frame_write(octets, 300, &frame, &n));
    IS(G3_FULL_HANDLE, g3_frame_write(octets, 300, &frame, &n));
    g3_octets_free(&frame); g3_deframer_free(&d); g3_deframer_free(&d);
}

int main(void)
{
    pages();
    rasters();
    coded();
    identified();
    files();
    frames();
    return bad;
}
