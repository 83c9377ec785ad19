/* A half-duplex fax modem, as a terminal uses it: one carrier or one tone at a time goes out; V.21 comes in, and beside it one carrier of
 * training checks and pages. Three files have one: modem.c, over the signal processing of libspandsp; bits.c, for tests without that; and
 * class1.c, for a fax modem that takes commands.
 *
 * Sound is signed samples of 16 bits, 8,000 a second, in slices of 5 ms. Carriers have the numbers of g3fax.h: G3_V21 and so on. A modem
 * that has a line of its own ignores the samples, and its slices are 5 ms by a clock. */
#ifndef MODEM_H
#define MODEM_H
#include <stdint.h>

enum { SLICE = 40, SLICE_MILLIS = 5 }; /* samples, and how long they last */

enum { BY_V21, BY_PAGE, RECEIVERS };   /* which receiver has brought octets */
enum { MOST_HEARD = 512 };             /* a slice at 14,400 bit/s has 9 octets, but a tty brings many at once */
enum { MOST_CONTENT = 300 };           /* octets of a frame's content */

/* What a slice has brought. The octets came between the beginning of the signal and its end. */
typedef struct modem_heard {
    int begins; /* a signal has begun */
    int trains; /* the page receiver is trained: its octets are those from here on */
    int fails;  /* it could not be trained by this carrier */
    int ends;   /* the signal has ended; the last octet of each receiver is filled up with 1 bits */
    uint32_t count[RECEIVERS];
    uint8_t octets[RECEIVERS][MOST_HEARD]; /* the first bit in the least significant bit of the first octet */
    uint32_t length; /* of the content of a good frame by V.21, from a modem that finds frames itself; 0: none */
    uint8_t content[MOST_CONTENT];
} modem_heard;

enum { TONE_CNG, TONE_CED }; /* of a caller, 0.5 s in 3.5 s; and of an answerer */

typedef struct modem modem; /* each file that makes one defines its own */

typedef struct modem_kind {
    void (*free)(modem *it); /* NULL is no modem */
    void (*begin_tone)(modem *it, int tone);
    /* Begins a carrier. `brief`: the receiver was trained by it before, so V.17 trains it in the short way. The octets are kept by address
     * until the carrier has ended. */
    void (*begin_carrier)(modem *it, uint32_t carrier, int brief, const uint8_t *octets, uint64_t bits);
    /* The next slice of the tone or the carrier, with zeros after its end; returns whether it goes on. */
    int (*say)(modem *it, int16_t *out);
    /* Ends the carrier that goes out: what it hasn't said of its octets yet is left out. It still goes on until `say` returns 0. */
    void (*cut)(modem *it);
    /* Sets what the page receiver listens for, from the next signal on; carrier 0: nothing. It forgets what is on the line. */
    void (*listen)(modem *it, uint32_t carrier, int brief);
    void (*hear)(modem *it, const int16_t *in, modem_heard *heard);
    /* Returns whether the page carrier was so noisy, since the receiver was trained, that frames would be lost, though a check may have
     * come well. */
    int (*is_noisy)(const modem *it);
    /* What is on the line now is no signal but its hiss: the signal ends. */
    void (*hush)(modem *it);
    /* Forgets what was heard: the line is silent as far as is known. For after a turn of one's own. */
    void (*forget)(modem *it);
    int has_tones; /* 1: it says CNG and CED itself when it dials and answers; a terminal says none, and an answerer begins with its DIS */
    int hears_one; /* 1: it hears one carrier at a time, the page's or V.21; any other carrier, or one that trains nothing, is silence */
} modem_kind;

/* The modem of modem.c or of bits.c, whichever the program is linked with. modem_new returns NULL if memory is refused. */
modem *modem_new(void);
extern const modem_kind modem_of_sound;
#endif
