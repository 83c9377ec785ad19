/* Calls that are stopped amid a page, for tests. */
#ifndef STOPPED_H
#define STOPPED_H
#include "trial.h"

/* Makes our end of a call; 0 if memory is refused. */
typedef int stopped_begin(party *out, const trial *kind, int calls);
/* Runs calls of a long page whose caller, or answerer, is stopped, and whose caller has to hurry; prints how they ended. Returns whether
 * each was in order: the one that was stopped has ended so, the other one has heard DCN, and a burst was cut where the caller had to
 * hurry. */
int stopped_try(stopped_begin *begin, const char *tells);
#endif
