/* The words of Class 1 (T.31): results, the numbers of carriers, and lists of them. */
#ifndef CLASS1_WORDS_H
#define CLASS1_WORDS_H
#include <stdint.h>

enum { OK, ERROR, CONNECT, NO_CARRIER, OTHER_CARRIER, RING, NO_CALL, ADAPTS_TO_V21, NO_RESULT };
/* Which result a line is. */
int class1_result(const char *line);
/* The number of a carrier of g3fax.h; V.17 has one for each training, and `brief` is the short one. */
int class1_number(uint32_t carrier, int brief);
/* Adds the numbers of a list, as "24,48,72-74" or "+FTM: (24,48)", to a set of them; returns whether it has any number. */
int class1_add_list(uint32_t *set, const char *line);
/* The fastest modems whose numbers are all in the set, with those of the slower ones: G3_V27TER, G3_V29 or G3_V17; 0: none. */
uint32_t class1_modems(uint32_t set);
#endif
