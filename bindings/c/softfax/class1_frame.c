#include "class1_frame.h"
#include "class1_words.h"

enum { ETX = 3, DLE = 16, SUB = 26, ADDRESS = 0xff, LAST_FRAME = 0x10, LEAST_FRAME = 5 };

void class1_frame_begin(class1_frame *it)
{
    it->length = it->escaped = it->is_ended = it->filled = 0;
}

/* What comes before the first FF is no part of a frame: the CR LF of a second CONNECT, or noise. */
static void put(class1_frame *it, uint8_t octet)
{
    if (it->length == 0 && octet != ADDRESS) return;
    if (it->length < MOST_FRAME) it->octets[it->length++] = octet;
}

/* The result that a line among the octets is, with this octet. A line is one that begins behind LF, or behind CONNECT, and ends with CR LF. */
static int line_of(class1_frame *it, uint8_t octet)
{
    if (octet != '\n') {
        if (it->filled < CLASS1_LINE) it->line[it->filled++] = (char)octet; /* one that is full is too long for a result */
        return NO_RESULT;
    }
    int length = it->filled;
    it->filled = 0;
    if (length == 0 || length == CLASS1_LINE || it->line[length - 1] != '\r') return NO_RESULT;
    it->line[length - 1] = 0;
    int is = class1_result(it->line);
    return is == OK || is == ERROR || is == CONNECT || is == NO_CARRIER || is == OTHER_CARRIER ? is : NO_RESULT;
}

int class1_frame_take(class1_frame *it, uint8_t octet)
{
    int is = line_of(it, octet);
    if (is != NO_RESULT) {
        class1_frame_begin(it);
        return is;
    }
    if (!it->escaped) {
        it->escaped = octet == DLE;
        if (!it->escaped) put(it, octet);
        return NO_RESULT;
    }
    it->escaped = 0;
    if (octet == DLE || octet == SUB) put(it, DLE);
    if (octet == SUB) put(it, DLE);
    it->is_ended = octet == ETX;
    return NO_RESULT;
}

int class1_frame_is_whole(const class1_frame *it)
{
    return it->is_ended && it->length >= LEAST_FRAME;
}

int class1_frame_is_last(const class1_frame *it)
{
    return it->length >= 2 && (it->octets[1] & LAST_FRAME) != 0;
}
