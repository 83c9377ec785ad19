#include "pages.h"
#include "files.h"
#include "record.h"
#include "told.h"
#include <errno.h>
#include <fcntl.h>
#include <string.h>
#include <sys/stat.h>
#include <time.h>
#include <unistd.h>

static int fails(const char *name, const char *why)
{
    told_fault(name, why);
    return 0;
}

/* How long the header of a raw PBM image is: P4, a width and a height, with white space and comments before each, and one octet. The library
 * has read it before. */
static size_t header_of(const uint8_t *octets, size_t length)
{
    size_t at = 2;
    for (int number = 0; number < 2; number++) {
        int is_comment = 0;
        for (; at < length && (is_comment || octets[at] < '0' || octets[at] > '9'); at++) {
            if (octets[at] == '#') is_comment = 1;
            if (octets[at] == '\n' || octets[at] == '\r') is_comment = 0;
        }
        while (at < length && octets[at] >= '0' && octets[at] <= '9') at++;
    }
    return at + 1;
}

/* Reads the first image of octets, a page that can be sent; returns why it can't. */
static const char *read_page(const uint8_t *octets, size_t length, int fine, pages_sent *out, uint64_t *images)
{
    g3_page page = G3_EMPTY;
    g3_status status = g3_page_read_pbm(octets, length, (uint32_t)fine, &page, images);
    g3_size size = G3_INIT(g3_size);
    if (status == G3_OK) status = g3_page_size(&page, &size);
    int is_wide_enough = size.width == 1728 || size.width == 2048 || size.width == 2432;
    if (status == G3_OK && !is_wide_enough) status = G3_NOT_CALLABLE;
    if (status == G3_OK && size.rows == 0) status = G3_NO_ROWS;
    if (status != G3_OK) return g3_page_free(&page), g3_status_text(status);
    out->size = size;
    out->page = page;
    return NULL;
}

/* Adds each image of octets; returns why it can't. */
static const char *add_all(const char *name, const uint8_t *octets, size_t length, int fine, pages_sent sent[MOST_IMAGES], int *count)
{
    uint64_t images = 1, left = 0;
    size_t at = 0;
    for (unsigned image = 1; image <= images; image++) {
        if (*count == MOST_IMAGES) return "a call has 1000 pages at most";
        pages_sent *it = &sent[*count];
        const char *why = read_page(octets + at, length - at, fine, it, &left);
        if (why != NULL) return why;
        ++*count;
        if (image == 1) images = left;
        if (left != images + 1 - image) return "its images can't be told apart";
        at += header_of(octets + at, length - at) + (size_t)((it->size.width + 7) / 8) * it->size.rows;
        it->file = name;
        it->image = images > 1 ? image : 0;
    }
    return NULL;
}

int pages_add(const char *name, int fine, pages_sent sent[MOST_IMAGES], int *count)
{
    size_t length = 0;
    errno = 0;
    uint8_t *octets = read_file(name, &length);
    if (octets == NULL) return fails(name, errno != 0 ? strerror(errno) : "it is too long for a page");
    const char *why = add_all(name, octets, length, fine, sent, count);
    free(octets);
    return why == NULL || fails(name, why);
}

int pages_is_folder(const char *name)
{
    struct stat found;
    if (stat(name, &found) != 0) return fails(name, strerror(errno));
    return S_ISDIR(found.st_mode) || fails(name, strerror(ENOTDIR));
}

/* Syncs a file; a signal doesn't end that. */
static int sync_file(int file)
{
    while (fsync(file) != 0) {
        if (errno != EINTR) return 0;
    }
    return 1;
}

/* Notes why a page isn't kept. */
static int refuses(pages_folder *folder, const char *name, const char *why)
{
    snprintf(folder->fault, sizeof folder->fault, "%.4000s: %.90s", name, why);
    return 0;
}

/* The folder that pages go to. */
static const char *place(const pages_folder *folder)
{
    return folder->is_of_calls ? folder->own : folder->name;
}

/* Opens a new file with a name that no page has: what a crash leaves isn't taken for one. -1 if none can be made. */
static int open_part(const pages_folder *folder, char *name, size_t room)
{
    enum { MOST_PARTS = 1000 };
    int file = -1;
    errno = EEXIST;
    for (int i = 1; i <= MOST_PARTS && file < 0 && errno == EEXIST; i++) {
        int length = snprintf(name, room, "%s/.softfax-%ld-%d.part", place(folder), (long)getpid(), i);
        if (length < 0 || (size_t)length >= room) return errno = ENAMETOOLONG, -1;
        file = open(name, O_WRONLY | O_CREAT | O_EXCL, S_IRUSR | S_IWUSR);
    }
    return file;
}

/* Gives a part a name that no file has where link can't, as on FAT: an empty file takes the name, and the page replaces it at once. */
static int move_part(const char *part, const char *name)
{
    int file = open(name, O_WRONLY | O_CREAT | O_EXCL, S_IRUSR | S_IWUSR);
    if (file < 0) return -1;
    close(file);
    if (rename(part, name) == 0) return 0;
    int why = errno;
    unlink(name);
    errno = why;
    return -1;
}

/* Gives a part the next name that no file has; the name is in a buffer. */
static int name_part(pages_folder *folder, const char *part, char *name, size_t room)
{
    int linked;
    do {
        int length = snprintf(name, room, "%s/page-%u.pbm", place(folder), ++folder->last);
        if (length < 0 || (size_t)length >= room) return errno = ENAMETOOLONG, 0;
        linked = link(part, name);
        if (linked != 0 && (errno == EPERM || errno == ENOSYS || errno == EOPNOTSUPP)) linked = move_part(part, name);
    } while (linked != 0 && errno == EEXIST);
    return linked == 0;
}

/* Syncs the names in the folder. */
static int sync_folder(const char *name)
{
    int folder = open(name, O_RDONLY | O_DIRECTORY);
    if (folder < 0) return 0;
    int is_synced = sync_file(folder), why = errno;
    close(folder);
    errno = why;
    return is_synced;
}

/* Writes and syncs octets, and closes the file; whether all of that was done. */
static int write_all(int file, const uint8_t *octets, size_t length)
{
    size_t done = 0;
    while (done < length) {
        ssize_t put = write(file, octets + done, length - done);
        if (put > 0) done += (size_t)put;
        else if (put == 0) errno = EIO;
        if (put == 0 || (put < 0 && errno != EINTR)) break;
    }
    int is_whole = done == length && sync_file(file);
    return close(file) == 0 && is_whole;
}

/* Makes a folder for this call, named by the time and a number that no folder has: 2026-11-29T101500-1. */
static int make_folder(pages_folder *folder)
{
    enum { MOST_FOLDERS = 10000 };
    char when[32] = "";
    time_t now = time(NULL);
    struct tm is;
    int made = -1;
    if (localtime_r(&now, &is) == NULL || strftime(when, sizeof when, "%Y-%m-%dT%H%M%S", &is) == 0) return 0;
    errno = EEXIST;
    for (int i = 1; i <= MOST_FOLDERS && made != 0 && errno == EEXIST; i++) {
        int length = snprintf(folder->own, sizeof folder->own, "%s/%s-%d", folder->name, when, i);
        if (length < 0 || (size_t)length >= sizeof folder->own) errno = ENAMETOOLONG;
        else made = mkdir(folder->own, S_IRUSR | S_IWUSR | S_IXUSR);
    }
    if (made == 0 && sync_folder(folder->name)) return 1;
    int why = errno;
    if (made == 0) rmdir(folder->own);
    folder->own[0] = 0;
    errno = why;
    return 0;
}

/* Writes a new page of the folder: whole under a part's name, then under its own. */
static int write_new(pages_folder *folder, const uint8_t *octets, size_t length, char *name, size_t room)
{
    char part[PAGES_NAME + 100];
    if (folder->is_of_calls && folder->own[0] == 0 && !make_folder(folder)) return refuses(folder, folder->name, strerror(errno));
    int file = open_part(folder, part, sizeof part), is_kept = 0;
    if (file < 0) return refuses(folder, place(folder), strerror(errno));
    if (!write_all(file, octets, length)) refuses(folder, part, strerror(errno));
    else if (!name_part(folder, part, name, room)) refuses(folder, name, strerror(errno));
    else if (!sync_folder(place(folder))) refuses(folder, place(folder), strerror(errno)), unlink(name);
    else is_kept = 1;
    unlink(part);
    return is_kept;
}

/* Returns whether a page of so many octets is within the limits. */
static int is_within(pages_folder *folder, uint64_t octets)
{
    if (folder->most_pages > 0 && folder->kept >= folder->most_pages) return refuses(folder, place(folder), "a page past --most-pages");
    if (folder->most_octets == 0 || octets <= folder->most_octets - folder->octets) return 1;
    return refuses(folder, place(folder), "a page past --most-octets");
}

/* A page with each row twice. One that is too long for that stays as it is. */
static g3_status make_square(g3_page *page, const g3_size *size, g3_page *out)
{
    enum { MOST_ROWS = 20000 };
    uint8_t row[2432 / 8];
    uint64_t count = 0;
    if (size->fine || size->rows > MOST_ROWS / 2) return G3_OK;
    g3_status status = g3_page_new(out, size->width, 1);
    for (uint32_t y = 0; status == G3_OK && y < size->rows; y++) {
        status = g3_page_row(page, y, row, sizeof row, &count);
        for (int i = 0; i < 2 && status == G3_OK; i++) status = g3_page_push_row(out, row, count);
    }
    if (status != G3_OK) g3_page_free(out);
    return status;
}

/* The octets of the file, to be freed. */
static g3_status write_image(g3_page *page, uint8_t **octets, uint64_t *length)
{
    g3_octets image = G3_EMPTY;
    g3_status status = g3_page_write_pbm(page, &image);
    if (status == G3_OK) status = g3_octets_len(&image, length);
    if (status == G3_OK) *octets = malloc(*length + 1);
    if (status == G3_OK) status = *octets == NULL ? G3_NO_MEMORY : g3_octets_copy(&image, *octets, *length, length);
    g3_octets_free(&image);
    return status;
}

/* Tells of a page that is kept. */
static void note(const pages_folder *folder, const char *name, const g3_size *size, int is_doubled)
{
    record_page record = {"page", folder->kept, name, 0, size->width, size->rows, size->fine, is_doubled, folder->figures};
    if (folder->json) record_page_json(&record);
}

int pages_keep(void *user, g3_page *page)
{
    pages_folder *folder = user;
    g3_page square = G3_EMPTY;
    g3_size size = G3_INIT(g3_size);
    uint8_t *octets = NULL;
    uint64_t length = 0;
    char name[PAGES_NAME + 100];
    g3_status status = g3_page_size(page, &size);
    if (status == G3_OK && folder->square) status = make_square(page, &size, &square);
    if (status == G3_OK) status = write_image(square.at != NULL ? &square : page, &octets, &length);
    int is_doubled = square.at != NULL, is_kept = 0;
    if (status != G3_OK) refuses(folder, place(folder), g3_status_text(status));
    else is_kept = is_within(folder, length) && write_new(folder, octets, length, name, sizeof name);
    free(octets);
    g3_page_free(&square);
    if (!is_kept) return 0;
    folder->kept++;
    folder->octets += length;
    note(folder, name, &size, is_doubled);
    return 1;
}
