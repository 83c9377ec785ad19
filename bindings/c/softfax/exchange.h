/* Two Class 1 modems of this process on two ptys, for programs that are no part of it: what dials on one rings at the other, in real time. */
#ifndef EXCHANGE_H
#define EXCHANGE_H
#include "soft.h"

/* Makes a link to each pty, and joins the modems by a clean line for ten minutes, or until SIGTERM or SIGINT. Returns whether it could
 * begin; that it couldn't is told. */
int exchange_run(const soft_kind *kind, char **links);
#endif
