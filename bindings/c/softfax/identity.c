#include "identity.h"
#include "carriers.h"
#include <stdlib.h>
#include <string.h>

enum { FLAG = 0x7e, ADDRESS = 0xff, NOT_LAST = 0x03, CSI = 0x40, TSI = 0x42, OF_CALLER = 1 };

int identity_is(const char *text)
{
    size_t length = strlen(text);
    for (size_t i = 0; i < length; i++) {
        if ((text[i] < '0' || text[i] > '9') && text[i] != ' ' && text[i] != '+') return 0;
    }
    return length > 0 && length <= IDENTITY_MOST;
}

/* The last character is sent first, and spaces after the first one. */
void identity_write(const char *text, int calls, uint8_t *content)
{
    size_t length = strlen(text);
    content[0] = ADDRESS;
    content[1] = NOT_LAST;
    content[2] = calls ? TSI | OF_CALLER : CSI;
    for (size_t i = 0; i < IDENTITY_MOST; i++) content[3 + i] = i < length ? (uint8_t)text[length - 1 - i] : ' ';
}

void identity_read(const g3_figures *figures, char text[IDENTITY_MOST + 1])
{
    size_t length = figures->peer_length;
    while (length > 0 && figures->peer[length - 1] == ' ') length--;
    for (size_t i = 0; i < length; i++) text[i] = figures->peer[i] >= ' ' && figures->peer[i] <= '~' ? (char)figures->peer[i] : '?';
    text[length] = 0;
}

uint8_t *identity_join(const uint8_t *octets, uint64_t bits, const uint8_t *content, uint64_t *joined)
{
    g3_octets handle = G3_EMPTY;
    uint8_t frame[64] = {0}; /* 25 octets with up to a fifth more of 0 bits, and two flags */
    uint64_t frame_bits = 0, length = 0, flags = 0, room = bits / 8 + 1 + sizeof frame + 1;
    g3_status status = g3_frame_write(content, IDENTITY_CONTENT, &handle, &frame_bits);
    if (status == G3_OK) status = g3_octets_copy(&handle, frame, sizeof frame, &length);
    g3_octets_free(&handle);
    uint8_t *out = status == G3_OK ? malloc(room) : NULL;
    if (out == NULL) return NULL;
    while ((flags + 1) * 8 <= bits && octets[flags] == FLAG) flags++;
    *joined = append_bits(out, 0, octets, 0, flags * 8);
    *joined = append_bits(out, *joined, frame, 0, frame_bits);
    *joined = append_bits(out, *joined, octets, flags * 8, bits);
    return out;
}
