#ifndef KIT_STDLIB_H
#define KIT_STDLIB_H
#include <stddef.h>
void *malloc(size_t size);
void *calloc(size_t count, size_t size);
void *realloc(void *block, size_t size);
void free(void *block);
int atoi(const char *text);
unsigned long strtoul(const char *text, char **end, int base);
#endif
