/* libspandsp's own fax terminal as an end of a call, for trials. */
#ifndef THEIRS_H
#define THEIRS_H
#include "trial.h"

/* 0 where it can't be made. It keeps its pages in files of the folder. */
int trial_theirs(party *out, const trial *kind, int calls, const char *folder);
#endif
