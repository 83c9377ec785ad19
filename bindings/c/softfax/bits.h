/* What bits.c can beside a modem's functions. */
#ifndef BITS_H
#define BITS_H
#include "modem.h"

/* So many bits of the carrier that goes out are there by now: it ends if it has sent them all. */
void bits_extend(modem *it, uint64_t bits);
#endif
