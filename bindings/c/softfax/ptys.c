/* ptys LINK LINK: two ptys, in real time, with a link to each, over two Class 1 modems of t31.c and bits.c's line: what dials on one rings at
 * the other. It needs no libspandsp. */
#include "exchange.h"
#include <stdio.h>

int main(int argc, char **argv)
{
    if (argc != 3) return fprintf(stderr, "usage: ptys LINK LINK\n"), 2;
    return !exchange_run(&soft_of_bits, argv + 1);
}
