/* How a station names itself: CSI before an answerer's DIS, TSI before a caller's DCS (T.30, 5.3.6.2). The stations of the library neither
 * send nor read them, so a terminal puts them before what it sends, as frames of their own. */
#ifndef IDENTITY_H
#define IDENTITY_H
#include "g3fax.h"

enum { IDENTITY_MOST = 20, IDENTITY_CONTENT = 3 + IDENTITY_MOST }; /* characters, and octets of the frame's content */

/* Returns whether a text can be a name: 1 to 20 digits, spaces and +. */
int identity_is(const char *text);
/* Writes the content of the frame, of IDENTITY_CONTENT octets. */
void identity_write(const char *text, int calls, uint8_t *content);
/* The other station's name, without the spaces around it; "": it hasn't named itself. What isn't printable ASCII is a question mark. */
void identity_read(const g3_figures *figures, char text[IDENTITY_MOST + 1]);
/* Returns a burst of V.21 with the frame of a content after its first flags, to be freed; NULL if memory is refused. */
uint8_t *identity_join(const uint8_t *octets, uint64_t bits, const uint8_t *content, uint64_t *joined);
#endif
