/* Pixels packed and unpacked through C: all octets, widths and rows that end anywhere, and each pixel that is none; nothing
 * beside the buffer changes. Prints what differs, and ends with 1 then. */
#include "statuses.h"

enum { MOST = 2 * 2432 + 16, FILLER = 0xA5 };
static uint8_t pixels[MOST], packed[MOST], again[MOST];
static uint32_t state = 12345;

static uint32_t below(uint32_t end)
{
    state = state * 1103515245u + 12345;
    return (state >> 16) % end;
}

static void both_ways(uint32_t width)
{
    uint32_t row = (width + 7) / 8;
    uint64_t count = 0;
    for (uint32_t at = 0; at < 2 * width; at++) pixels[at] = (uint8_t)below(2);
    memset(packed, FILLER, MOST), memset(again, FILLER, MOST);
    IS(G3_NO_ROOM, g3_pixels_pack(pixels, 2 * width, width, packed, 2 * row - 1, &count));
    IS(2 * row, (g3_status)count);
    IS(FILLER, packed[0]);
    IS(G3_OK, g3_pixels_pack(pixels, 2 * width, width, packed, 2 * row, &count));
    for (uint32_t y = 0; y < 2; y++)
        for (uint32_t x = 0; x < 8 * row; x++)
            IS(x < width ? pixels[y * width + x] : 0, packed[y * row + x / 8] >> (7 - x % 8) & 1);
    IS(FILLER, packed[2 * row]);
    if (width % 8 != 0) packed[row - 1] |= (uint8_t)(0xFF >> width % 8); /* the bits that fill a row */
    IS(G3_NO_ROOM, g3_pixels_unpack(packed, 2 * row, width, again, 2 * width - 1, &count));
    IS(2 * width, (g3_status)count);
    IS(G3_OK, g3_pixels_unpack(packed, 2 * row, width, again, 2 * width, &count));
    IS(0, memcmp(pixels, again, 2 * width));
    IS(FILLER, again[2 * width]);
    uint32_t at = below(2 * width);
    pixels[at] = (uint8_t)(2u << below(7));
    memset(packed, FILLER, MOST), count = 9;
    IS(G3_BAD_CHOICE, g3_pixels_pack(pixels, 2 * width, width, packed, 2 * row, &count));
    for (uint32_t place = 0; place <= 2 * row; place++) IS(FILLER, packed[place]);
    IS(9, (g3_status)count);
    if (width > 1) IS(G3_BAD_LENGTH, g3_pixels_pack(pixels, 2 * width - 1, width, packed, 2 * row, &count));
    if (row > 1) IS(G3_BAD_LENGTH, g3_pixels_unpack(packed, 2 * row - 1, width, again, MOST, &count));
}

int main(void)
{
    static uint8_t rows[20001];
    uint64_t count = 9;
    for (uint32_t width = 1; width < 70; width++) both_ways(width);
    for (uint32_t width = 2425; width <= 2432; width++) both_ways(width);
    for (uint32_t octet = 0; octet < 256; octet++) {
        uint8_t one = (uint8_t)octet;
        IS(G3_OK, g3_pixels_unpack(&one, 1, 8, again, 8, &count));
        for (uint32_t x = 0; x < 8; x++) IS(one >> (7 - x) & 1, again[x]);
        IS(G3_OK, g3_pixels_pack(again, 8, 8, packed, 1, &count));
        IS(octet, packed[0]);
    }
    count = 9;
    IS(G3_BAD_WIDTH, g3_pixels_pack(pixels, 0, 0, packed, 8, &count));
    IS(G3_BAD_WIDTH, g3_pixels_pack(pixels, 0, 2433, packed, 8, &count));
    IS(G3_BAD_WIDTH, g3_pixels_unpack(pixels, 0, 0, packed, 8, &count));
    IS(G3_TOO_MANY_ROWS, g3_pixels_unpack(rows, 20001, 8, packed, 8, &count));
    IS(G3_NO_ADDRESS, g3_pixels_pack(NULL, 8, 8, packed, 8, &count));
    IS(G3_NO_ADDRESS, g3_pixels_pack(pixels, 8, 8, NULL, 8, &count));
    IS(G3_NO_ADDRESS, g3_pixels_unpack(rows, 1, 8, packed, 8, NULL));
    IS(9, (g3_status)count);
    IS(G3_OK, g3_pixels_pack(NULL, 0, 8, NULL, 0, &count));
    IS(0, (g3_status)count);
    return bad;
}
