/* What softfax tells on standard error, a line in one piece. Nobody may read it: a line is waited for a short while, and then lines are
 * left out until there is room again. So a call never waits for who reads of it. */
#ifndef TOLD_H
#define TOLD_H

/* Tells a line. */
void told(const char *line);
/* Tells what is at fault, and why. */
void told_fault(const char *name, const char *why);
/* A line in parts: words and numbers as printf writes them. */
__attribute__((format(printf, 1, 2))) void told_add(const char *format, ...);
void told_end(void);
#endif
