#ifndef KIT_STRING_H
#define KIT_STRING_H
#include <stddef.h>
int strcmp(const char *a, const char *b);
size_t strlen(const char *text);
int strncmp(const char *a, const char *b, size_t length);
void *memmove(void *to, const void *from, size_t length);
int memcmp(const void *a, const void *b, size_t length);
void *memset(void *to, int octet, size_t length);
void *memcpy(void *to, const void *from, size_t length);
#endif
