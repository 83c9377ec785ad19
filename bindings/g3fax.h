/* The proved Group 3 fax codec, frames and stations, for C and for every language that calls C. README.md, which is installed in share/doc,
 * says what is defined and what isn't, who owns what, and which status comes when. SPDX: MIT OR Apache-2.0 */
#ifndef G3FAX_H
#define G3FAX_H
#include <stddef.h>
#include <stdint.h>
#ifdef __cplusplus
extern "C" {
#endif

/* The version of this header, 10000 a major, 100 a minor one: 0.1.0 is 100. g3_version_number returns that of the library. */
#define G3_VERSION_NUMBER 100

/* Before a function whose status is to be looked at: the compiler warns if it isn't. Functions without it fail by a wrong handle alone.
 * Define G3_CHECK as nothing, before this header, for no warnings. */
#ifndef G3_CHECK
#ifdef __GNUC__
#define G3_CHECK __attribute__((warn_unused_result))
#else
#define G3_CHECK
#endif
#endif

/* A handle is empty, G3_EMPTY, or has one value, which it owns: free it by the function of its kind. Don't copy one that has a value. Two
 * handles share nothing. Functions that take a const handle only read: many threads may call them at once, and each other function has its
 * handle for itself. */
typedef struct g3_page { void *at; } g3_page;
typedef struct g3_octets { void *at; } g3_octets;
typedef struct g3_deframer { void *at; } g3_deframer;
typedef struct g3_document { void *at; } g3_document;
typedef struct g3_terminal { void *at; } g3_terminal;
typedef struct g3_row_coder { void *at; } g3_row_coder;
typedef struct g3_row_reader { void *at; } g3_row_reader;
#define G3_EMPTY {NULL}
/* the same as a value, to be assigned: page = G3_EMPTY_OF(g3_page) */
#ifndef __cplusplus
#define G3_EMPTY_OF(type) ((type)G3_EMPTY)
#else
#define G3_EMPTY_OF(type) (type())
#endif

/* Each struct that the library writes begins with its own size in octets, which the program sets: g3_state state = G3_INIT(g3_state). So it
 * can grow: a later library writes no more than that. A size that isn't known is G3_BAD_SIZE, and the size of a longer struct, as a later
 * version may have it, G3_NEWER_STRUCT; nothing is written then. The `spare` words of a struct are 0, until a later version names them: the
 * library writes 0, and reads only 0, else G3_NEWER_STRUCT. Numbers that are handed out, as listens, end, reason and kind, stay among those
 * that the program's version names; others come by new functions alone. */
#ifndef __cplusplus
#define G3_INIT(type) {.size = sizeof(type)}
#else
extern "C++" {
template <class type> inline type g3_init() { type it = type(); it.size = sizeof it; return it; }
}
#define G3_INIT(type) (g3_init<type>())
#endif
/* the same as a value, to be assigned: state = G3_INIT_OF(g3_state) */
#ifndef __cplusplus
#define G3_INIT_OF(type) ((type)G3_INIT(type))
#else
#define G3_INIT_OF(type) G3_INIT(type)
#endif

/* What each function answers. By any status above 0, G3_FRAME_LOST aside, each handle is as it was. */
typedef uint32_t g3_status;
enum g3_status_number {
    G3_OK = 0,
    /* faults of pages and images */
    G3_BAD_WIDTH = 1, G3_TOO_MANY_ROWS = 3, G3_NO_ROWS = 4, G3_BAD_HEADER = 5, G3_SHORT_DATA = 6, G3_NO_IMAGE = 7, G3_NO_MEMORY = 9,
    /* faults of coded pages, with G3_NO_ROWS */
    G3_BAD_CODE = 10, G3_TRUNCATED = 11, G3_RUN_TOO_LONG = 12, G3_BACKWARDS = 13, G3_PAST_END = 14, G3_EMPTY_HORIZONTAL = 15,
    G3_EXTENSION = 16, G3_MISSING_EOFB = 17, G3_TOO_MANY_CODED_ROWS = 18,
    /* a content that says no signal: its address isn't FF, its control field is neither 03 nor 13, a field is missing or cut short */
    G3_BAD_ADDRESS = 20, G3_BAD_CONTROL = 21, G3_SHORT_FIELD = 22,
    /* a document whose page has a width that a call can't have */
    G3_NOT_CALLABLE = 26,
    /* two stations have no way to send pages */
    G3_NOT_COMPATIBLE = 28,
    /* wrong use */
    G3_EMPTY_HANDLE = 100, G3_OTHER_HANDLE = 101, G3_FULL_HANDLE = 102, G3_NO_ROOM = 103, G3_BAD_CHOICE = 104, G3_BAD_LENGTH = 105,
    G3_NOTHING = 106, G3_BAD_SIZE = 107, G3_NEWER_STRUCT = 109, G3_NO_ADDRESS = 110,
    /* octets of the line were taken, and memory was refused: a frame in them is lost, as on a line */
    G3_FRAME_LOST = 108
};

enum g3_coding { G3_MH = 1, G3_MMR = 2 };              /* T.4 in one dimension, T.6 */
enum g3_order { G3_MSB_FIRST = 0, G3_LSB_FIRST = 1 }; /* which bit of an octet is first */

/* how large a page is */
typedef struct g3_size {
    uint64_t size;  /* of this struct */
    uint32_t width; /* pixels */
    uint32_t rows;
    uint32_t fine; /* 1: 7.7 lines a millimeter, 0: 3.85 */
    uint32_t spare;
} g3_size;

/* how a page is coded */
typedef struct g3_code {
    uint32_t coding; /* G3_MH or G3_MMR */
    uint32_t order;  /* G3_MSB_FIRST or G3_LSB_FIRST */
    uint32_t width;  /* pixels, 1 to 2432 */
    uint32_t fine;
    uint32_t spare[4];
} g3_code;

/* How rows lie in octets; stride comes first, so that the struct has no gap between its members. */
typedef struct g3_raster {
    uint64_t stride; /* octets from the beginning of a row to that of the next one */
    uint32_t width;  /* pixels, 1 to 2432 */
    uint32_t rows;   /* 0 to 20000 */
    uint32_t fine;
    uint32_t spare[3];
} g3_raster;

/* gaps between flags: good frames, those with six 1 bits in a row, no whole number of octets, fewer than 5 octets, more than 302, and
 * those with a wrong check sequence */
typedef struct g3_counts {
    uint64_t size; /* of this struct */
    uint64_t good, aborted, ragged, too_short, too_long, damaged;
} g3_counts;

/* Frees what a handle has; it is empty then. An empty one stays empty. */
void g3_page_free(g3_page *page);
void g3_octets_free(g3_octets *octets);
void g3_deframer_free(g3_deframer *deframer);
void g3_document_free(g3_document *document);
void g3_terminal_free(g3_terminal *terminal);
void g3_row_coder_free(g3_row_coder *coder);
void g3_row_reader_free(g3_row_reader *reader);

/* The text of a status, in English; never NULL, and not to be freed. */
const char *g3_status_text(g3_status status);
/* The version of the library, as "0.1.0", and as G3_VERSION_NUMBER has it. */
const char *g3_version(void);
uint32_t g3_version_number(void);

/* Pages: 0 to 20000 rows of 1 to 2432 pixels. A row is octets as in a raw PBM file: eight pixels an octet, the leftmost in the
 * highest bit, 1 black. G3_BAD_WIDTH: another width. */
G3_CHECK g3_status g3_page_new(g3_page *out, uint32_t width, uint32_t fine);
/* Appends a row of the first bits of octets; later bits are ignored. G3_BAD_LENGTH: too few octets. G3_TOO_MANY_ROWS: it has 20000. */
G3_CHECK g3_status g3_page_push_row(g3_page *page, const uint8_t *octets, size_t length);
/* How many pixels a row has, how many rows there are, and whether they are fine. */
G3_CHECK g3_status g3_page_size(const g3_page *page, g3_size *size);
/* Copies row `number`, from 0 at the top. *count: the octets of a row, also where G3_NO_ROOM is answered. G3_NOTHING: no such row. */
G3_CHECK g3_status g3_page_row(const g3_page *page, uint32_t number, uint8_t *buffer, size_t room, uint64_t *count);

/* Makes a page of the rows of octets. What is between the rows, and after the last one, is ignored; the last row wants its own octets
 * alone. G3_BAD_LENGTH: the stride is less than a row's octets, or there are too few octets. */
G3_CHECK g3_status g3_page_read_raster(const uint8_t *octets, size_t length, const g3_raster *raster, g3_page *out);
/* Copies all rows, so many octets apart; the octets between the rows stay. *count: the octets from the first row's beginning to the last
 * one's end, also where G3_NO_ROOM is answered. G3_BAD_LENGTH: the stride is less than a row's octets. */
G3_CHECK g3_status g3_page_write_raster(const g3_page *page, uint64_t stride, uint8_t *buffer, size_t room, uint64_t *count);

/* Packs pixels, octets 0 and 1, as whole rows of a width, and makes octets of packed rows; the bits that fill a row are ignored. *count: the
 * octets that are written, also where G3_NO_ROOM is answered. G3_BAD_LENGTH: no whole number of rows. G3_BAD_CHOICE: a pixel is neither. */
G3_CHECK g3_status g3_pixels_pack(const uint8_t *pixels, size_t length, uint32_t width, uint8_t *buffer, size_t room, uint64_t *count);
G3_CHECK g3_status g3_pixels_unpack(const uint8_t *rows, size_t length, uint32_t width, uint8_t *buffer, size_t room, uint64_t *count);

/* Codes a page; the last octet is filled with 0 bits. */
G3_CHECK g3_status g3_page_encode(const g3_page *page, uint32_t coding, uint32_t order, g3_octets *out);
/* Reads the page that octets begin with; what follows is ignored. *place: the bits used, or, of G3_NO_ROWS and 10 to 18, the bit from 0
 * where no page can go on. */
G3_CHECK g3_status g3_page_decode(const uint8_t *octets, size_t length, const g3_code *code, g3_page *out, uint64_t *place);
/* Reads the whole rows that octets begin with, of a page that can't be read: there may be none. *fault: why it can't be, G3_NO_ROWS or 10 to
 * 18, and *place the bit from 0 where no page can go on. Of a page that can be read *fault is G3_OK, and *place the bits used. */
G3_CHECK g3_status g3_page_salvage(const uint8_t *octets, size_t length, const g3_code *code, g3_page *out, uint32_t *fault, uint64_t *place);
/* Reads the page whose lines octets of G3_MH begin with, as a receiver without error correction gives it: a row that can't be read is the
 * one before it. *count: how many rows are such. 4 and 10 to 18 where no row can be read. G3_BAD_CHOICE: G3_MMR has no repair. */
G3_CHECK g3_status g3_page_repair(const uint8_t *octets, size_t length, const g3_code *code, g3_page *out, uint64_t *count);

/* what octets are: a page, or pages, that read in one way; a file of another format; a page whose width isn't known, since several fit;
 * nothing that is known; a page that can't be read to its end; T.4 in two dimensions (MR), which isn't read */
enum g3_found_kind {
    G3_FOUND_PAGE = 1, G3_FOUND_FORMAT = 2, G3_FOUND_SEVERAL = 3, G3_FOUND_NOTHING = 4, G3_FOUND_BEGUN = 5, G3_FOUND_TWO_DIM = 6
};

/* what octets are; what doesn't belong to the kind is 0 */
typedef struct g3_found {
    uint64_t size;   /* of this struct */
    uint64_t place;  /* of a page, the bits of its code, the first page's of several; or the bit of the fault, from 0 */
    uint32_t kind;   /* G3_FOUND_.. */
    uint32_t coding; /* of a page: G3_MH or G3_MMR */
    uint32_t order;  /* G3_MSB_FIRST or G3_LSB_FIRST; of T.4 in two dimensions too */
    uint32_t width;  /* pixels; of T.4 in two dimensions those of its first row */
    uint32_t rows;   /* of the first page, or those before the fault */
    uint32_t fault;  /* of a page, 0: g3_page_decode reads it. G3_MISSING_EOFB: g3_page_salvage does. Else g3_page_repair, and copies no row */
    uint32_t repaired; /* the rows that g3_page_repair gives */
    uint32_t length;   /* of a format: the letters of its name */
    char format[48];   /* of a format: its name in English, as "TIFF", and a 0 after it; else "" */
} g3_found;
/* Says how octets read, as faxtool identify does: both codes in both orders of bits are tried, G3_MH at the width that its first row says,
 * else at the usual ones. A format is known by the octets that its files begin with. */
G3_CHECK g3_status g3_identify(const uint8_t *octets, size_t length, g3_found *found);
/* Finds the next page of a file, after its first `used` bits: those of the page before, which g3_page_decode tells as *place. *next: the
 * bit at which it begins. In that bit's octet the bits before it are made 0, and no other octet changes: so g3_page_decode reads the page
 * from the octet *next / 8 on. After a page of G3_MMR nothing is written, since the next one begins in an octet of its own. Width and `fine`
 * of the code are ignored. G3_NOTHING: no page follows, only EOLs and 0 bits.
 * Of many pages in G3_LSB_FIRST turn each octet first, and read them in G3_MSB_FIRST: g3_page_decode turns up to 4 MiB for each page. */
G3_CHECK g3_status g3_page_next(uint8_t *octets, size_t length, const g3_code *code, uint64_t used, uint64_t *next);

/* The first image of a raw PBM file in memory, and how many images it has; and a page as such an image. G3_NO_IMAGE: there are no octets.
 * G3_BAD_HEADER: they don't begin as such an image. G3_SHORT_DATA: its rows are cut short. */
G3_CHECK g3_status g3_page_read_pbm(const uint8_t *octets, size_t length, uint32_t fine, g3_page *out, uint64_t *count);
G3_CHECK g3_status g3_page_write_pbm(const g3_page *page, g3_octets *out);

/* A page is coded row by row: the memory doesn't grow with its rows where the octets are taken as they come. `fine` of the code is
 * ignored. G3_BAD_CHOICE: no such code. G3_BAD_WIDTH: its width isn't 1 to 2432. */
G3_CHECK g3_status g3_row_coder_new(g3_row_coder *out, const g3_code *code);
/* Codes a row of the first bits of octets; later bits are ignored. G3_BAD_LENGTH: too few octets. G3_TOO_MANY_ROWS: it has 20000. */
G3_CHECK g3_status g3_row_coder_push_row(g3_row_coder *coder, const uint8_t *octets, size_t length);
/* The octets of the code that are whole so far, after those that were taken; there may be none. */
G3_CHECK g3_status g3_row_coder_take(g3_row_coder *coder, g3_octets *out);
/* The last octets of the code; 0 bits fill the last one. The coder's handle is empty then. */
G3_CHECK g3_status g3_row_coder_finish(g3_row_coder *coder, g3_octets *out);

/* A page whose octets come in pieces is read row by row: the memory doesn't grow with its rows. `fine` of the code is ignored. */
G3_CHECK g3_status g3_row_reader_new(g3_row_reader *out, const g3_code *code);
/* Takes the next octets of the page, as many as there is room for, and tells how many: 65536 octets that weren't read are held at most.
 * Where none are taken though all rows were, a row is longer than that, or the page has ended or is refused. */
G3_CHECK g3_status g3_row_reader_feed(g3_row_reader *reader, const uint8_t *octets, size_t length, uint64_t *taken);
/* Copies the next row that is whole in the octets so far. Where none is, all octets so far are answered for as by g3_page_decode, and more
 * octets may change the answer: G3_NOTHING is the page's end, and *place the bits used; of G3_NO_ROWS and 10 to 18 *place is the bit from 0
 * where no page can go on. *count: the octets of a row, also where G3_NO_ROOM is answered; no row is given then. */
G3_CHECK g3_status g3_row_reader_next(g3_row_reader *reader, uint8_t *buffer, size_t room, uint64_t *count, uint64_t *place);

/* Octets that a call has made. *count: how many there are, also where G3_NO_ROOM is answered. */
G3_CHECK g3_status g3_octets_len(const g3_octets *octets, uint64_t *count);
/* Where they are: *data is the address of *count octets, to be read until the handle changes or is freed. Of no octets it is NULL. */
G3_CHECK g3_status g3_octets_data(const g3_octets *octets, const uint8_t **data, uint64_t *count);
/* Copies all of them. *count: how many there are, also where G3_NO_ROOM is answered. */
G3_CHECK g3_status g3_octets_copy(const g3_octets *octets, uint8_t *buffer, size_t room, uint64_t *count);

/* Frames (HDLC): found in bits that come in pieces of any octets, the least significant bit of each first. */
G3_CHECK g3_status g3_deframer_new(g3_deframer *out);
/* G3_NO_MEMORY: nothing was taken; give the octets again. */
G3_CHECK g3_status g3_deframer_feed(g3_deframer *deframer, const uint8_t *octets, size_t length);
/* Copies the content of the oldest good frame that wasn't handed out: 3 to 300 octets, without the check sequence. G3_NOTHING: none
 * waits. G3_NO_ROOM: room for fewer than 300 octets; nothing is handed out. */
G3_CHECK g3_status g3_deframer_next(g3_deframer *deframer, uint8_t *buffer, size_t room, uint64_t *count);
/* How many gaps between flags there were of each class. */
G3_CHECK g3_status g3_deframer_counts(const g3_deframer *deframer, g3_counts *counts);
/* Writes the frame of a content of 3 to 300 octets: a flag, the content and its check sequence with 0 bits stuffed, and a flag. *bits:
 * how many bits it has; fewer than eight 0 bits fill the last octet. */
G3_CHECK g3_status g3_frame_write(const uint8_t *content, size_t length, g3_octets *out, uint64_t *bits);

/* Documents: the pages of a call, in order. */
G3_CHECK g3_status g3_document_new(g3_document *out);
/* Moves a page to the end: its handle is empty then. The page is copied for that, so that nothing is lost where memory is refused.
 * G3_NO_ROWS: it has no row. */
G3_CHECK g3_status g3_document_push(g3_document *document, g3_page *page);
/* How many pages it has. */
G3_CHECK g3_status g3_document_pages(const g3_document *document, uint64_t *count);
/* Codes each page now, as G3_MH or G3_MMR: no call that agrees on this code codes it again. The document has the codes as long as its pages,
 * through calls, and of one code alone: those of the other one take their place. A page that is pushed later is coded when it is due.
 * G3_BAD_CHOICE: no such code. G3_NOTHING: there is no page. */
G3_CHECK g3_status g3_document_code(g3_document *document, uint32_t coding);

/* Terminals: the two stations of a call with error correction (T.30, Annex A), a caller and an answerer. A terminal hears octets of the
 * line and gives the bursts that are to be sent. It has no clock and no modem: the program measures the waits, and listens by the carrier
 * that g3_terminal_state names. */

/* the modems of a station: V.27 ter alone, V.27 ter and V.29, or these and V.17 */
enum g3_modems { G3_V27TER = 1, G3_V29 = 2, G3_V17 = 3 };

/* what an answerer can do */
typedef struct g3_caps {
    uint32_t modems; /* G3_V27TER, G3_V29 or G3_V17 */
    uint32_t t6;     /* 1: it reads T.6 beside T.4 in one dimension */
    uint32_t fine;   /* 1: it takes pages of 7.7 lines a millimeter */
    uint32_t widest; /* the width of its widest page in pixels: 1728, 2048 or 2432 */
    uint32_t limit;  /* how many pages it stores before it is busy, 1 or more */
    uint32_t spare[3];
} g3_caps;

/* how a caller would send its pages */
typedef struct g3_wish {
    uint32_t modems; /* G3_V27TER, G3_V29 or G3_V17 */
    uint32_t coding; /* G3_MH or G3_MMR; where the answerer doesn't read T.6, G3_MH is sent */
    uint32_t frame;  /* the octets of data in a frame: 256 or 64 */
    uint32_t spare[5];
} g3_wish;

/* The name of the first field whose number stands for no choice, by which G3_BAD_CHOICE was answered, as "widest"; NULL: there is none. */
const char *g3_code_wrong(const g3_code *code);
const char *g3_caps_wrong(const g3_caps *caps);
const char *g3_wish_wrong(const g3_wish *wish);

/* An answerer, whose first burst is DIS. G3_BAD_CHOICE: a number of caps stands for no choice. */
G3_CHECK g3_status g3_answerer_new(g3_terminal *out, const g3_caps *caps);
/* A caller, which waits for a DIS. The document moves in: its handle is empty then. G3_NOTHING: it has no page. G3_NOT_CALLABLE: a page
 * isn't 1728, 2048 or 2432 pixels wide. G3_BAD_CHOICE: a number of wish stands for no choice. */
G3_CHECK g3_status g3_caller_new(g3_terminal *out, g3_document *document, const g3_wish *wish);
/* The same, of the pages from `first` on, counted from 0: those that a call before didn't confirm. They are copied for that, with their
 * codes, so that nothing is lost where memory is refused; those before them are freed. G3_NOTHING: there is no such page. */
G3_CHECK g3_status g3_caller_new_from(g3_terminal *out, g3_document *document, uint64_t first, const g3_wish *wish);

/* Hears octets that came by V.21 or by the carrier of a page: flags and frames, the least significant bit of each first, in pieces of any
 * size, but of one burst. While a burst of its own waits to be sent a station takes DCN alone: no other frame can answer what it hasn't said.
 * An answerer that hears a page under the number of the last one, which it can't tell from that, stops its call. G3_NO_MEMORY: nothing was
 * taken; give the octets again. G3_FRAME_LOST: don't. */
G3_CHECK g3_status g3_terminal_hear(g3_terminal *terminal, const uint8_t *octets, size_t length);
/* Hears a good frame by its content, 3 to 300 octets, as g3_terminal_hear hears the octets of this frame between two flags: for a modem that
 * finds the frames itself. Octets of a frame that began stay. G3_NO_MEMORY: nothing was taken; give it again. */
G3_CHECK g3_status g3_terminal_hear_frame(g3_terminal *terminal, const uint8_t *content, size_t length);
/* Hears the octets of a training check that has come. */
G3_CHECK g3_status g3_terminal_hear_training(g3_terminal *terminal, const uint8_t *octets, size_t length);
/* What the terminal listens for didn't come: a carrier that couldn't be read, or another one. An awaited training check counts as a bad one
 * then; else nothing changes. */
G3_CHECK g3_status g3_terminal_missed(g3_terminal *terminal);

/* the waits of T.30, 5.4.3.1 */
enum g3_wait { G3_T1 = 1, G3_T2 = 2, G3_T4 = 4, G3_T5 = 5 };
/* A wait is over; one that doesn't run changes nothing. G3_BAD_CHOICE: no such wait. */
G3_CHECK g3_status g3_terminal_wait_over(g3_terminal *terminal, uint32_t wait);
/* How long a wait runs, in milliseconds; 0 for a number that is no wait. */
uint32_t g3_wait_millis(uint32_t wait);

/* what the line of a call is at a tick: nothing is on it; a carrier of either station is, or has ended and the program doesn't know; or the
 * other station's has just ended, so that it is this one's turn */
enum g3_line { G3_QUIET = 1, G3_CARRIER = 2, G3_ENDED = 3 };
/* Tells a terminal the time, in milliseconds since its call was set up, and what the line is: a wait that is over on a quiet line ends,
 * unless a burst waits to be sent. Call it when the line changes, after each burst that was sent, and when g3_terminal_due says;
 * g3_terminal_wait_over isn't called then. Frames and checks that were heard since the last tick are heard now. G3_BAD_CHOICE: no such line,
 * or a time before that of the last tick. */
G3_CHECK g3_status g3_terminal_tick(g3_terminal *terminal, uint64_t now, uint32_t line);
/* When the next tick does something, by the time of the ticks, if the line stays as it is and nothing comes: a wait is over, or the call has
 * lasted as long as it may. G3_NOTHING: never; so on a carrier, before the first tick, while a burst waits to be sent, and after a burst until
 * the next tick, if there is no limit. */
G3_CHECK g3_status g3_terminal_due(const g3_terminal *terminal, uint64_t *at);
/* what a program does next with a terminal: it waits for what comes; it sends the burst that waits; or it waits until a time */
enum g3_next { G3_NEXT_NOTHING = 0, G3_NEXT_SEND = 1, G3_NEXT_AT = 2 };
/* What a program does next; G3_NEXT_AT tells the time of g3_terminal_due too, and else at stays. */
G3_CHECK g3_status g3_terminal_next(const g3_terminal *terminal, uint32_t *next, uint64_t *at);
/* How many seconds the call may last, by the time of the ticks; 0 for no limit, as in the beginning. The first tick of G3_QUIET or G3_ENDED
 * from then on does what g3_terminal_stop does. On a carrier the first tick 10 s later does what g3_terminal_lost does. */
G3_CHECK g3_status g3_terminal_most_seconds(g3_terminal *terminal, uint32_t seconds);
/* Whether an answerer can't take pages for now. */
G3_CHECK g3_status g3_terminal_set_busy(g3_terminal *terminal, uint32_t is);
/* Ends the call in order: DCN is to be sent in place of what was. */
g3_status g3_terminal_stop(g3_terminal *terminal);
/* The same also where the call has ended: what was to be sent isn't, as the confirmation of a page that couldn't be kept. */
g3_status g3_terminal_hang_up(g3_terminal *terminal);
/* The line is gone: nothing is left to be sent. */
g3_status g3_terminal_lost(g3_terminal *terminal);

/* what a burst goes out on, by the bits a second of it: a training check and the frames of a page go by the same */
enum g3_carrier {
    G3_V21 = 1, G3_V27TER_2400 = 2, G3_V27TER_4800 = 3, G3_V29_7200 = 4, G3_V29_9600 = 5, G3_V17_7200 = 6, G3_V17_9600 = 7,
    G3_V17_12000 = 8, G3_V17_14400 = 9
};

/* The name of a carrier, as "v17-14400", and its bits a second; "none" and 0 for a number that is no carrier. */
const char *g3_carrier_name(uint32_t carrier);
uint32_t g3_carrier_rate(uint32_t carrier);

/* how a burst is sent */
typedef struct g3_burst {
    uint64_t size; /* of this struct */
    uint64_t bits;
    uint32_t carrier;
    uint32_t check; /* 1: a training check, 0 bits alone; 0: flags and frames */
    uint32_t last;  /* 1: the last one before the other station has its turn */
    uint32_t spare;
} g3_burst;

/* The next burst that is to be sent, 75 ms after the one before it. Its octets hold the bits, the least significant of each first.
 * G3_NOTHING: nothing is left to be sent. For a modem that wants frames and not bits: a g3_deframer that is fed the octets gives the contents
 * of the burst's frames, in order. */
G3_CHECK g3_status g3_terminal_next_burst(g3_terminal *terminal, g3_octets *out, g3_burst *burst);

/* what a station listens for: V.21 alone; a training check by `carrier`; V.21, and the frames of a page by `carrier`, one of which comes next;
 * or the same where V.21 comes first, and pages only after it: for a modem that hears one carrier at a time */
enum g3_hears { G3_HEARS_V21 = 1, G3_HEARS_CHECK = 2, G3_HEARS_PAGES = 3, G3_HEARS_V21_THEN_PAGES = 4 };
/* why a call ended. "Again": another call by the caller, of the pages that weren't confirmed, may go better; else it ends so once more */
enum g3_end {
    G3_END_NORMAL = 1,         /* all pages went over */
    G3_END_NO_ANSWER = 2,      /* again: no DIS or no DCS came */
    G3_END_NOT_COMPATIBLE = 3, /* again with other pages, or to another station alone: they have no way to send these */
    G3_END_TRAINING = 4,       /* again: training failed at the lowest speed */
    G3_END_NO_REPLY = 5,       /* again: a command had no reply, three times */
    G3_END_UNREADABLE = 6,     /* again: a block was asked for a fourth time */
    G3_END_STILL_BUSY = 7,     /* again: the answerer was busy for too long */
    G3_END_PEER_LEFT = 8,      /* again: it left before all pages were confirmed: an answerer's are by the MCF taken by g3_terminal_next_burst */
    G3_END_BAD_PAGE = 9,       /* an answerer couldn't read a page */
    G3_END_PAGE_TOO_LONG = 10, /* a page's code is too long */
    G3_END_STOPPED = 11,       /* by g3_terminal_stop or _hang_up, by the limit of seconds, or at a page under a used number */
    G3_END_LINE_LOST = 12      /* again: by g3_terminal_lost */
};

/* Why a call ended, in English; never NULL, and not to be freed. */
const char *g3_end_text(uint32_t end);

/* how a call stands */
typedef struct g3_state {
    uint64_t size;    /* of this struct */
    uint64_t pages;   /* of a caller, confirmed; of an answerer, stored and not taken by g3_terminal_take_page */
    uint64_t frames;  /* how many good frames were heard */
    uint32_t listens; /* G3_HEARS_.. */
    uint32_t carrier; /* where it listens for more than V.21; else 0 */
    uint32_t wait;    /* the wait that runs; 0 for none */
    uint32_t longer;  /* the longer one beside it; 0 for none */
    uint32_t end;     /* 0: the call goes on; else G3_END_.. */
    uint32_t spare;
} g3_state;
/* What a terminal listens for, which waits run, how many pages there are, and why its call ended. */
G3_CHECK g3_status g3_terminal_state(const g3_terminal *terminal, g3_state *state);

/* why a call is refused: a second DCS is without error correction, or has a speed, a width, lines or a code that aren't offered; or a page has
 * come under the number of the last one, from which it can't be told, so that the terminal has stopped the call in place of confirming it */
enum g3_refused { G3_REFUSED_NO_ECM = 1, G3_REFUSED_NOT_OFFERED = 2, G3_REFUSED_USED_NUMBER = 3 };

/* what a call came to so far, counted from the good frames that its terminal heard and from those of the bursts that were taken by
 * g3_terminal_next_burst; the frames of pages, FCD and RCP, count as nothing */
typedef struct g3_figures {
    uint64_t blocks;        /* blocks that are confirmed, each by the first MCF after its PPS */
    uint64_t pprs;          /* PPRs */
    uint64_t resent;        /* frames that these ask for, of those that the block of the last PPS has */
    uint64_t retries;       /* commands, which are DIS, DCS, PPS and RR, that this terminal sent with no frame heard since the one before */
    uint64_t failed_checks; /* FTTs */
    uint32_t first_speed;   /* the carrier of the first DCS; 0: none came */
    uint32_t last_speed;    /* that of the last one */
    uint32_t other;         /* 1: the last frame that was heard is G3_OTHER: it may want an answer that isn't given */
    uint32_t control;       /* the octet of its facsimile control field */
    uint32_t peer_length;   /* how many characters the other station's name has; 0: it hasn't named itself in 20 characters, by CSI or TSI */
    uint8_t peer[20];       /* the name without the spaces before it, as it is read, and then 0; any octets */
} g3_figures;

/* how far a call is; what belongs to the other station is 0 */
typedef struct g3_progress {
    uint64_t size;           /* of this struct */
    uint64_t pages;          /* of a caller's document; or those that an answerer has stored and that weren't taken */
    uint64_t confirmed;      /* pages that are confirmed: of a caller, the one under way is the next; of an answerer, by the MCFs taken to be sent */
    uint64_t block;          /* the block of its page that a caller sends, from 1; 0 in phase B and after the end */
    uint64_t blocks;         /* how many blocks that page has; 0 where block is */
    uint64_t octets;         /* octets of code that an answerer has of the page under way, in the blocks that it accepted */
    uint32_t resends;        /* how often frames of the block were asked for again: 0 to 3 */
    uint32_t tries;          /* how often a caller's last command was sent: DCS, PPS or RR; 0 before the first one */
    uint32_t frames;         /* frames that an answerer has of the block under way: 0 to 256 */
    uint32_t accepted;       /* 1: an answerer has accepted a block, the last one that of the next two */
    uint32_t accepted_page;  /* the number of its page modulo 256 */
    uint32_t accepted_block; /* its number in that page modulo 256 */
    uint32_t refused;        /* how often an answerer had a DCS that it doesn't allow: 0 to 2, which is twice or more */
    uint32_t refused_why;    /* G3_REFUSED_.., or 0. For a DCS the program may stop the call; for a used number the terminal has */
    uint32_t gap;            /* 1: the page numbers that an answerer hears have jumped, so a page may be missing */
    uint32_t gap_page;       /* the first number modulo 256, from 0, that was neither the last one nor the next */
    g3_figures figures;      /* what the call came to */
} g3_progress;
G3_CHECK g3_status g3_terminal_progress(const g3_terminal *terminal, g3_progress *progress);

/* The oldest page that an answerer has stored and that wasn't taken. G3_NOTHING: there is none. Where none waits in the handle, all stored
 * pages leave the station, which isn't busy for them then: there are never more than 2 * limit - 1 in memory. */
G3_CHECK g3_status g3_terminal_take_page(g3_terminal *terminal, g3_page *out);
/* The same, and the answerer is busy, so that the caller isn't told that its page has arrived: it hears RNR, and asks again, until
 * g3_terminal_set_busy(terminal, 0) says that the page is stored. G3_BAD_CHOICE: its limit isn't 1, so that pages are confirmed before. */
G3_CHECK g3_status g3_terminal_hold(g3_terminal *terminal, g3_page *out);

/* Hands back the document of a caller whose call has ended, as g3_caller_new took it, for another call, and how many of its first pages are
 * confirmed, as *confirmed. The caller's handle is empty then, so ask for its state before. No memory is taken. G3_NOTHING: the call goes on;
 * g3_terminal_lost ends it. */
G3_CHECK g3_status g3_terminal_take_document(g3_terminal *terminal, g3_document *out, uint64_t *confirmed);

/* Signals (T.30, 5.3.6 and A.4): what the contents of frames say. A program that has its own frames reads and writes them by these; a
 * terminal needs none of it. */

/* the kinds of signals; G3_OTHER is one of another facsimile control field, or a DCS or PPS that says what isn't known here */
enum g3_kind {
    G3_DIS = 1, G3_DCS = 2, G3_CFR = 3, G3_FTT = 4, G3_FCD = 5, G3_RCP = 6, G3_PPS = 7, G3_PPR = 8, G3_MCF = 9, G3_RNR = 10, G3_RR = 11,
    G3_DCN = 12, G3_OTHER = 13
};
/* the modems of a DIS beside G3_V27TER, G3_V29 (with V.27 ter) and G3_V17 (with both) */
enum g3_modems_alone { G3_V29_ALONE = 4, G3_V27TER_2400_ALONE = 5 };
/* what ends with the block of a PPS: nothing more, a page (MPS), the last page of a group (EOM), the last page (EOP) */
enum g3_block_end { G3_BLOCK_ALONE = 1, G3_MPS = 2, G3_EOM = 3, G3_EOP = 4 };
/* who sends: the first bit of most facsimile control fields says it */
enum g3_side { G3_CALLER = 1, G3_ANSWERER = 2 };

/* what a station can do, as its DIS says it; 1 is yes, 0 no */
typedef struct g3_dis {
    uint32_t receiver; /* it receives pages */
    uint32_t modems;   /* G3_V27TER, G3_V29, G3_V17, G3_V29_ALONE or G3_V27TER_2400_ALONE */
    uint32_t fine;     /* it takes pages of 7.7 lines a millimeter */
    uint32_t widest;   /* the width of its widest page in pixels: 1728, 2048 or 2432 */
    uint32_t t6;       /* it reads T.6 beside T.4 in one dimension */
    uint32_t ecm;      /* it has the error correction mode */
    uint32_t spare[2];
} g3_dis;

/* how pages are sent, as a DCS says it */
typedef struct g3_dcs {
    uint32_t carrier; /* G3_V27TER_2400 to G3_V17_14400 */
    uint32_t fine;    /* 1: 7.7 lines a millimeter, 0: 3.85 */
    uint32_t width;   /* pixels: 1728, 2048 or 2432 */
    uint32_t coding;  /* G3_MH or G3_MMR */
    uint32_t frame;   /* the octets of data in a frame: 256 or 64 */
    uint32_t spare[3];
} g3_dcs;

/* what a PPS says of a block */
typedef struct g3_block {
    uint32_t ends;  /* G3_BLOCK_ALONE, G3_MPS, G3_EOM or G3_EOP */
    uint32_t page;  /* the number of the page modulo 256 */
    uint32_t block; /* the number of the block in its page modulo 256 */
    uint32_t last;  /* the number of the block's last frame */
    uint32_t spare[4];
} g3_block;

/* what the content of a frame says */
typedef struct g3_signal {
    uint64_t size;       /* of this struct, with those in it */
    uint64_t length;     /* how many octets: 1 to 256 of an FCD's data, 32 of a PPR's bits */
    uint32_t kind;       /* G3_DIS to G3_OTHER; what belongs to other kinds is 0 where a signal was read */
    g3_dis dis;          /* of a DIS */
    g3_dcs dcs;          /* of a DCS */
    g3_block pps;        /* of a PPS */
    uint32_t number;     /* of an FCD, the number of its frame in the block */
    uint32_t control;    /* of G3_OTHER, the octet of the facsimile control field */
    uint32_t spare;
    uint8_t octets[296]; /* an FCD's data, or the 256 bits of a PPR: bit n % 8 of octet n / 8 is 1 where frame n is asked for. More stays */
} g3_signal;

/* Reads the content of a frame as a signal; what comes after a signal's fields is ignored, save in an FCD. G3_BAD_ADDRESS, G3_BAD_CONTROL,
 * G3_SHORT_FIELD: it says none. G3_NO_ROOM: an FCD of more than 296 octets of data. */
G3_CHECK g3_status g3_signal_read(const uint8_t *content, size_t length, g3_signal *signal);
/* Writes the signal as the content of a frame, as G3_CALLER or G3_ANSWERER sends it; `last`: 1 in the last frame of a transmission, 0 in
 * each other. *count: its octets, 3 to 300, also where G3_NO_ROOM is answered. G3_BAD_CHOICE: a field has another number than those named,
 * or the kind is G3_OTHER. G3_BAD_LENGTH: an FCD hasn't 1 to 256 octets, or a PPR 32. What was written is read as the signal. */
G3_CHECK g3_status g3_signal_write(const g3_signal *signal, uint32_t side, uint32_t last, uint8_t *buffer, size_t room, uint64_t *count);

/* why two stations don't agree; of several reasons the first one: it doesn't receive, it has no error correction, the page is too wide for
 * it, it takes no fine lines, no speed is common */
enum g3_reason { G3_NO_RECEIVER = 1, G3_NO_ECM = 2, G3_TOO_WIDE = 3, G3_NO_FINE = 4, G3_NO_COMMON_SPEED = 5 };

/* how two stations have agreed to send pages */
typedef struct g3_params {
    uint64_t size; /* of this struct */
    g3_dcs dcs;
} g3_params;
/* What a caller of this wish agrees on with a station of this DIS, for pages of a width in pixels, `fine` or not: what its DCS says.
 * G3_NOT_COMPATIBLE: *reason is why not. G3_NOT_CALLABLE: the width isn't 1728, 2048 or 2432. */
G3_CHECK g3_status g3_agree(const g3_dis *dis, const g3_wish *wish, uint32_t width, uint32_t fine, g3_params *params, uint32_t *reason);

/* How the pages of the group that is under way are sent. G3_NOTHING: none is; a caller waits for a DIS, or an answerer for a DCS. */
G3_CHECK g3_status g3_terminal_params(const g3_terminal *terminal, g3_params *params);
/* What is known of the other station, as a signal without octets: of a caller's terminal the last DIS that was agreed on, of an answerer's
 * the last DCS that it took; in both it stays known after the end where a page, or a block of one, went over. G3_NOTHING: nothing is known. */
G3_CHECK g3_status g3_terminal_peer(const g3_terminal *terminal, g3_signal *signal);

#ifdef __cplusplus
}
#endif
#endif
