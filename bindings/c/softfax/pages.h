/* Pages in files for softfax. */
#ifndef PAGES_H
#define PAGES_H
#include "g3fax.h"

enum { MOST_IMAGES = 1000, PAGES_NAME = 4096 };

/* A page of a document, and where it is from. */
typedef struct pages_sent {
    const char *file;
    unsigned image;   /* which image of the file it is, from 1; 0: the only one */
    g3_size size;
    g3_page page;     /* until it is moved to a document */
} pages_sent;

/* Adds the pages of a raw PBM file, an image each, to those that there are, and counts them. Returns whether it could add all; that it
 * couldn't is told on standard error. */
int pages_add(const char *name, int fine, pages_sent sent[MOST_IMAGES], int *count);

/* Where an answerer keeps its pages. */
typedef struct pages_folder {
    const char *name;      /* the folder, or that of the folders */
    int is_of_calls;       /* each call has a folder of its own in it, which is made for the first page */
    char own[PAGES_NAME];  /* that folder; "": there is none yet */
    unsigned last;         /* the number of the last file */
    unsigned kept;         /* how many pages are there */
    uint64_t octets;       /* of their files */
    uint64_t most_pages, most_octets; /* 0: no limit */
    int json;              /* a record is written of each */
    int square;            /* a page of 3.85 lines a millimeter has each row twice, so that its pixels are about square */
    const g3_figures *figures; /* how the other station has named itself, for the records */
    char fault[PAGES_NAME + 100]; /* why the last page wasn't kept; "": it was */
} pages_folder;
/* Returns whether there is such a folder; if not, that is told. */
int pages_is_folder(const char *name);
/* Keeps a page as a new file of the folder, page-1.pbm and so on, which its owner alone can read; returns whether it is there whole, and on
 * the disk. Fits terminal_pages. */
int pages_keep(void *folder, g3_page *page);
#endif
