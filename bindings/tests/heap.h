/* The heap of a test: it counts the blocks that are there, and refuses one growth. Linked with --wrap=malloc, realloc and free. */
#include <stddef.h>

void *__real_malloc(size_t size);
void *__real_realloc(void *block, size_t size);
void __real_free(void *block);

static unsigned long grown; /* growths so far */
static unsigned long refused; /* the number of the growth that is refused, from 1; 0 for none */
static long blocks; /* the blocks that are there */
static size_t asked; /* how many octets the last new block was asked for with */

void *__wrap_malloc(size_t size)
{
    asked = size;
    if (++grown == refused) return NULL;
    void *block = __real_malloc(size);
    if (block != NULL) blocks++;
    return block;
}
void *__wrap_realloc(void *block, size_t size)
{
    if (++grown == refused) return NULL;
    if (block == NULL) blocks++;
    return __real_realloc(block, size);
}
void __wrap_free(void *block)
{
    if (block != NULL) blocks--;
    __real_free(block);
}
