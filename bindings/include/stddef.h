/* What the kit's clang lacks of C's headers, as far as g3fax.h, g3fax.c and the examples want it. Any other compiler has its own. */
#ifndef KIT_STDDEF_H
#define KIT_STDDEF_H
typedef __SIZE_TYPE__ size_t;
#define NULL ((void *)0)
#endif
