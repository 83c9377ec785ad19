/* Three threads read one page, one document, one octets, one deframer and one terminal at once: each reads what one thread reads. Meanwhile
 * the memory of all these, and of their handles, can't be written, so that a write ends the program. Linked with --wrap=malloc, realloc and
 * free. Prints nothing and ends with 0 where each read is the same. */
#include "g3fax.h"
#include <stdio.h>
#include <string.h>
/* words of a struct that are left out are 0 */
#pragma GCC diagnostic ignored "-Wmissing-field-initializers"

/* of the C library */
void *mmap(void *at, size_t length, int allowed, int flags, int file, long place);
int mprotect(void *at, size_t length, int allowed);
int pthread_create(unsigned long *thread, const void *attributes, void *(*run)(void *), void *of);
int pthread_join(unsigned long thread, void **answer);
enum { READ = 1, WRITE = 2, PRIVATE = 2, ANONYMOUS = 32, MOST = 1 << 22, THREADS = 3, READS = 20000 };

void *__real_malloc(size_t size);
void *__real_realloc(void *block, size_t size);
void __real_free(void *block);

typedef struct shared {
    g3_page page;
    g3_octets octets;
    g3_document document;
    g3_deframer deframer;
    g3_terminal terminal;
} shared;

static uint8_t *memory; /* the handles, and then each block that was taken while it was open */
static size_t used;
static int open;

void *__wrap_malloc(size_t size)
{
    if (!open) return __real_malloc(size);
    if (size > MOST - used - 32) return NULL;
    uint8_t *block = memory + used + 16;
    memcpy(memory + used, &size, sizeof size);
    used += 16 + (size + 15) / 16 * 16;
    return block;
}
static int is_ours(const uint8_t *block) { return block >= memory && block < memory + MOST; }
void *__wrap_realloc(void *block, size_t size)
{
    size_t had = 0;
    if (block == NULL) return __wrap_malloc(size);
    if (!is_ours(block)) return __real_realloc(block, size);
    memcpy(&had, (uint8_t *)block - 16, sizeof had);
    uint8_t *more = __wrap_malloc(size);
    if (more != NULL) memcpy(more, block, had < size ? had : size);
    return more;
}
void __wrap_free(void *block)
{
    if (!is_ours(block)) __real_free(block);
}

/* What all reads give, as one number; 0 where one is refused. */
static uint64_t reads(const shared *of)
{
    uint8_t buffer[512];
    const uint8_t *data = NULL;
    g3_size size = G3_INIT(g3_size);
    g3_counts counts = G3_INIT(g3_counts);
    g3_state state = G3_INIT(g3_state);
    g3_progress far = G3_INIT(g3_progress);
    g3_params params = G3_INIT(g3_params);
    g3_signal peer = G3_INIT(g3_signal);
    uint64_t row = 0, raster = 0, length = 0, copied = 0, seen = 0, pages = 0, due = 0, sum = 0;
    if (g3_page_size(&of->page, &size) != G3_OK || g3_page_row(&of->page, 1, buffer, sizeof buffer, &row) != G3_OK
        || g3_page_write_raster(&of->page, 216, buffer, sizeof buffer, &raster) != G3_OK || g3_octets_len(&of->octets, &length) != G3_OK
        || g3_octets_data(&of->octets, &data, &seen) != G3_OK || g3_document_pages(&of->document, &pages) != G3_OK
        || g3_deframer_counts(&of->deframer, &counts) != G3_OK || g3_terminal_state(&of->terminal, &state) != G3_OK
        || g3_terminal_progress(&of->terminal, &far) != G3_OK || g3_terminal_params(&of->terminal, &params) != G3_NOTHING
        || g3_terminal_peer(&of->terminal, &peer) != G3_NOTHING || g3_terminal_due(&of->terminal, &due) != G3_NOTHING)
        return 0;
    for (uint64_t at = 0; at < raster; at++) sum += (at + 1) * buffer[at];
    if (g3_octets_copy(&of->octets, buffer, sizeof buffer, &copied) != G3_OK || copied != length || seen != length) return 0;
    if (memcmp(buffer, data, length) != 0) return 0;
    for (uint64_t at = 0; at < seen; at++) sum += (at + 1000) * data[at];
    return sum + size.rows + size.width + row + raster + pages + counts.good + state.listens + state.wait + far.pages + due;
}

/* What is made of a page, while others read it. */
static uint64_t makes(const shared *of)
{
    g3_octets code = G3_EMPTY, image = G3_EMPTY;
    uint64_t length = 0, octets = 0;
    g3_status status = g3_page_encode(&of->page, G3_MMR, G3_MSB_FIRST, &code);
    if (status == G3_OK) status = g3_page_write_pbm(&of->page, &image);
    if (status == G3_OK) status = g3_octets_len(&code, &length);
    if (status == G3_OK) status = g3_octets_len(&image, &octets);
    g3_octets_free(&code), g3_octets_free(&image);
    return status == G3_OK ? length * 1000 + octets : 0;
}

static void *run(void *of)
{
    uint64_t read = reads(of), made = makes(of), wrong = read == 0 || made == 0;
    for (int count = 0; count < READS; count++) wrong += reads(of) != read;
    for (int count = 0; count < READS / 100; count++) wrong += makes(of) != made;
    return (void *)wrong;
}

static g3_status fill(shared *of)
{
    const uint8_t row[216] = {0x0F, 0xAA};
    g3_caps caps = {G3_V17, 1, 1, 2432, 1};
    g3_page page = G3_EMPTY;
    uint64_t bits = 0;
    g3_status status = g3_page_new(&of->page, 1728, 0);
    if (status == G3_OK) status = g3_page_push_row(&of->page, row, sizeof row);
    if (status == G3_OK) status = g3_page_push_row(&of->page, row, sizeof row);
    if (status == G3_OK) status = g3_frame_write(row, 20, &of->octets, &bits);
    if (status == G3_OK) status = g3_page_new(&page, 1728, 0);
    if (status == G3_OK) status = g3_page_push_row(&page, row, sizeof row);
    if (status == G3_OK) status = g3_document_new(&of->document);
    if (status == G3_OK) status = g3_document_push(&of->document, &page);
    if (status == G3_OK) status = g3_deframer_new(&of->deframer);
    if (status == G3_OK) status = g3_deframer_feed(&of->deframer, row, sizeof row);
    return status == G3_OK ? g3_answerer_new(&of->terminal, &caps) : status;
}

int main(void)
{
    unsigned long threads[THREADS];
    void *wrong = NULL;
    int bad = 0, started = 0;
    memory = mmap(NULL, MOST, READ | WRITE, PRIVATE | ANONYMOUS, -1, 0);
    if (memory == (void *)-1) return printf("no memory\n"), 1;
    shared *of = (shared *)memory;
    used = (sizeof *of + 15) / 16 * 16;
    open = 1;
    g3_status status = fill(of);
    open = 0;
    if (status != G3_OK) return printf("%s\n", g3_status_text(status)), 1;
    if (mprotect(memory, MOST, READ) != 0) return printf("the memory can be written\n"), 1;
    while (started < THREADS && pthread_create(&threads[started], NULL, run, of) == 0) started++;
    for (int at = 0; at < started; at++) {
        if (pthread_join(threads[at], &wrong) != 0) wrong = threads;
        if (wrong != NULL) printf("%lu reads are other ones\n", (unsigned long)wrong), bad = 1;
    }
    return bad || started != THREADS;
}
