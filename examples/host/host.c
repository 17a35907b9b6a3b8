/* A host for the page history, as a cabinet would have it: the store is kept in one image file.

     host new IMAGE SIZE BRANCHES RECORDS PLACES   make the image of a fresh store
     host run [OPTIONS] IMAGE [ANSWER_BYTES]       standard input is one batch; the answers and then one byte, the stop
                                                   number, go to standard output; the stop number, the four counts, and
                                                   the branches before and after go to standard error; with stop number 3
                                                   the record row that breaks a rule, counted from 0
     host grow IMAGE BRANCHES RECORDS PLACES       the same store over larger tables
     host copy IMAGE TO [BRANCHES RECORDS PLACES]  a copy of the store in the new file TO, without what lies in the slab
                                                   behind the last page in use and without the live disk; with larger
                                                   tables if they are given
     host live IMAGE ADDRESS                       the page of the address as it is at now, 256 bytes, goes to standard
                                                   output, or nothing where there is none; the area and the offset at
                                                   which it lies, and the mark of the address, go to standard error
     host step IMAGE N                             brings up to N stale pages of the live disk to date; how many there were,
                                                   and how many are stale still, goes to standard error
     host disk IMAGE OUT                           the live disk as it is, in the new file OUT; how many of its pages are
                                                   stale, and how many current ones are blank, goes to standard error
     host revert [OPTIONS] [--order N] IMAGE MOMENT
                                                   as run with a batch of one revert, which has the work order N, 0 to
                                                   65,535, or 0 where none is given
     host orders IMAGE MOMENT [LIST_BYTES]         the work orders of a moment, from its branch up to and with the first row,
                                                   nearest first, go to standard output, two bytes each, high byte first;
                                                   how many there are goes to standard error

   Options of run and revert:
     --stop-at-refusal   the requests after the first refused one are not carried out, and not answered
     --all-or-nothing    where a request is refused or the batch stops, the image stays as it was
     --copy NAME         before the image is replaced, it is copied to NAME, in its own folder

   The image file: 28 bytes of header (the letters KZIMAGE4; branch rows, record rows and place rows, four bytes
   each; CRC-32 of all other bytes of the file, four bytes; how many pages of the live disk the file has, four bytes),
   then head, branch table, record table, place table, name table, marks, live disk and page slab, just as the library
   takes them. All numbers are most significant byte first. Marks and live disk are in the file for every address, or for
   none: then every page is stale, with mark 0, and zero in memory. The slab may end behind any whole page from the last
   one in use on: what the file leaves out is zero in memory. A copy leaves out all that it can; an image that is replaced
   is written whole.

   An image of before 0.7.0 begins with KZIMAGE3, and its branch rows have 12 bytes, without a work order; one of before
   0.6.0 begins with KZIMAGE2, and has besides neither the number of disk pages nor marks and disk; one of before 0.3.0
   begins with KZIMAGE1, and has besides a head of 20 bytes and no name table. They are opened as stores in which every
   branch has work order 0, with every page of the live disk stale where they have none, and without names; what only reads
   leaves them as they are, and the first change writes them in the form above.

   A step is a change like any other: a cut of power during or between steps leaves disk and marks as one of the steps
   left them, and the next one goes on from there.

   The file is never changed in place. The new image is written beside it under another name and forced to the
   disk, then takes over the name by rename, and the folder is forced to the disk: a cut of power at any moment
   leaves the old or the new image, whole. Answers are written only after that. Otherwise a caller could hold an
   answer (say, the moment to name to undo a revert) of a store that came back from the cut without that request.
   After a cut the other case remains: the image is the new one and the answers were not seen. `kz IMAGE status`
   shows now, which tells the two apart where the batch marks or reverts.

   The other name is .IMAGE.kizmoolet-PROCESS. No image has such a name, since this program refuses it; a file of this
   name that is there already is not overwritten. One that a host left which was cut off is removed by the next one that
   makes or changes the image: a plain file of the same owner, which no living host has locked.

   Mode and owner stay; a copy has the mode of the image, and is owned by the caller. An image that may not be written is
   not replaced; it can be read and copied. The image itself is locked, so that hosts wait for each other at one image,
   and not at others of the folder.

   Exit status: 0 all requests were accepted, or the file was made; 5 all were answered, some refused; 3 the library
   stopped with a number other than 0; 6 --all-or-nothing, something was refused or stopped, and the image is as it was;
   1 something failed, and the image is as it was; 4 something failed after the image got its new bytes; 2 usage. */
#define _GNU_SOURCE
#include <dirent.h>
#include <errno.h>
#include <fcntl.h>
#include <limits.h>
#include <signal.h>
#include <stdarg.h>
#include <stdint.h>
#include <stdio.h>
#include <stdlib.h>
#include <string.h>
#include <sys/file.h>
#include <sys/resource.h>
#include <sys/stat.h>
#include <unistd.h>

#include "kizmoolet.h"
#include "kizmoolet_requests.h"

enum {
    HEADER = 28,
    CHECKSUM_AT = 20,
    DISK_AT = 24, /* how many pages of the live disk the file has */
    FORM = 4,     /* the last of the letters that an image begins with */
    HEAD = KIZMOOLET_HEAD_BYTES,
    BRANCH = KIZMOOLET_BRANCH_BYTES,
    PAGE = KIZMOOLET_PAGE_BYTES,
    LIVE = 1 + PAGE, /* a page of the live disk and its mark */
    OLD_HEADER = 24, /* of before 0.6.0: without the number of disk pages */
    OLD_HEAD = 20,   /* of before 0.3.0: without the number of names */
    OLD_BRANCH = 12, /* of before 0.7.0: without the work order */
    NAMES = KIZMOOLET_NAMES_BYTES,
    WRITE = KIZMOOLET_WRITE, /* operations */
    READ = KIZMOOLET_READ,
    NAME = KIZMOOLET_NAME,
    WITHDRAW = KIZMOOLET_WITHDRAW,
    ANSWER = KIZMOOLET_ANSWER_BYTES,           /* without a page */
    PAGE_ANSWER = KIZMOOLET_PAGE_ANSWER_BYTES, /* with a page and its date */
    BRANCHES_MOST = 4096,
    ROWS_MOST = 65536,
    BATCH_MOST = 1 << 26,  /* bytes of one batch: more than three whole volumes of writes */
    STACK_NEEDED = 2 << 20 /* the library takes 1.38 MB of it */
};

static const char magic[8] = {'K', 'Z', 'I', 'M', 'A', 'G', 'E', '0' + FORM};

static const char aside_word[] = ".kizmoolet-";

/* A file that may be replaced: its folder, held open, its name in that folder, and the name that a new image has there
   until it takes over. */
struct place {
    int folder;
    char name[NAME_MAX + 1];
    char aside[NAME_MAX + 1];
};

/* An image in memory: all its bytes, how many a file has of marks and disk and of the slab, where its parts stand. */
struct image {
    uint8_t *bytes;
    size_t length, live_in_file, slab_in_file;
    uint8_t *head, *branches, *records, *places, *names, *marks, *disk, *slab;
    size_t branches_len, records_len, places_len, marks_len, disk_len, slab_len;
};

/* The areas of an image, as the library takes them. */
#define STORE(image) \
    (image)->head, HEAD, (image)->branches, (image)->branches_len, (image)->records, (image)->records_len, \
        (image)->places, (image)->places_len, (image)->names, NAMES, (image)->slab, (image)->slab_len
#define DISK(image) (image)->disk, (image)->disk_len, (image)->marks, (image)->marks_len

/* What a file has, part behind part. */
struct content {
    struct {
        const uint8_t *bytes;
        size_t length;
    } part[3];
};

/* A copy that was made for a change: removed again where the change fails. */
static int copy_folder = -1;
static const char *copy_name;

static void fail(int status, const char *format, ...) {
    va_list given;
    if (status == 1 && copy_folder >= 0)
        unlinkat(copy_folder, copy_name, 0);
    va_start(given, format);
    fputs("host: ", stderr);
    vfprintf(stderr, format, given);
    fputc('\n', stderr);
    va_end(given);
    exit(status);
}

static void *room(size_t length) {
    void *area = malloc(length ? length : 1);
    if (!area)
        fail(1, "no memory for %zu bytes", length);
    return area;
}

static uint32_t number_at(const uint8_t *at) {
    return (uint32_t)at[0] << 24 | (uint32_t)at[1] << 16 | (uint32_t)at[2] << 8 | at[3];
}

static void put_number(uint8_t *at, uint32_t value) {
    at[0] = (uint8_t)(value >> 24);
    at[1] = (uint8_t)(value >> 16);
    at[2] = (uint8_t)(value >> 8);
    at[3] = (uint8_t)value;
}

/* The usual CRC-32, as zlib has it. */
static uint32_t crc32_on(uint32_t before, const uint8_t *bytes, size_t length) {
    static uint32_t table[256];
    if (!table[1])
        for (uint32_t byte = 0; byte < 256; byte++) {
            uint32_t left = byte;
            for (int bit = 0; bit < 8; bit++)
                left = left & 1 ? left >> 1 ^ 0xEDB88320u : left >> 1;
            table[byte] = left;
        }
    uint32_t crc = ~before;
    for (size_t at = 0; at < length; at++)
        crc = crc >> 8 ^ table[(crc ^ bytes[at]) & 0xFF];
    return ~crc;
}

static size_t image_length(uint32_t branches, uint32_t records, uint32_t places, uint32_t disk_pages) {
    return (size_t)HEADER + HEAD + BRANCH * (size_t)branches + 12 * (size_t)records + (4 + PAGE) * (size_t)places + NAMES +
        LIVE * (size_t)disk_pages;
}

/* Where the parts stand, by the numbers of rows in the header and the pages of the live disk. */
static void lay_out(struct image *image, uint32_t disk_pages) {
    image->branches_len = BRANCH * (size_t)number_at(image->bytes + 8);
    image->records_len = 12 * (size_t)number_at(image->bytes + 12);
    image->places_len = 4 * (size_t)number_at(image->bytes + 16);
    image->marks_len = disk_pages;
    image->disk_len = PAGE * image->marks_len;
    image->slab_len = image->places_len / 4 * PAGE;
    image->head = image->bytes + HEADER;
    image->branches = image->head + HEAD;
    image->records = image->branches + image->branches_len;
    image->places = image->records + image->records_len;
    image->names = image->places + image->places_len;
    image->marks = image->names + NAMES;
    image->disk = image->marks + image->marks_len;
    image->slab = image->disk + image->disk_len;
}

/* The file of an image: header and tables; marks and disk, or neither; of the slab as much as is to be in it. */
static struct content file_of(struct image *image) {
    size_t tables = (size_t)(image->marks - image->bytes);
    struct content file = {
        {{image->bytes, tables}, {image->marks, image->live_in_file}, {image->slab, image->slab_in_file}}};
    put_number(image->bytes + DISK_AT, (uint32_t)(image->live_in_file / LIVE));
    uint32_t crc = crc32_on(0, image->bytes, CHECKSUM_AT);
    crc = crc32_on(crc, image->bytes + CHECKSUM_AT + 4, tables - CHECKSUM_AT - 4);
    crc = crc32_on(crc, image->marks, image->live_in_file);
    crc = crc32_on(crc, image->slab, image->slab_in_file);
    put_number(image->bytes + CHECKSUM_AT, crc);
    return file;
}

static size_t length_of(const struct content *file) {
    return file->part[0].length + file->part[1].length + file->part[2].length;
}

/* The length of the file name that an aside name is for: .NAME.kizmoolet-NUMBER. 0 where it is no aside name. */
static size_t aside_of(const char *name) {
    const char *digits = name + strlen(name);
    while (digits > name && digits[-1] >= '0' && digits[-1] <= '9')
        digits--;
    size_t before = (size_t)(digits - name), word = sizeof aside_word - 1;
    if (*digits == 0 || name[0] != '.' || before < word + 2 || memcmp(digits - word, aside_word, word) != 0)
        return 0;
    return before - word - 1;
}

static struct place find_place(const char *path) {
    char whole[PATH_MAX], *slash;
    struct place place;
    struct stat found;
    if (lstat(path, &found) == 0) { /* a link is followed, so that the file it names is replaced, and not the link */
        if (!realpath(path, whole))
            fail(1, "%s: %s", path, strerror(errno));
    } else if ((size_t)snprintf(whole, sizeof whole, "%s%s", strchr(path, '/') ? "" : "./", path) >= sizeof whole)
        fail(1, "%s: the name is too long", path);
    slash = strrchr(whole, '/');
    if (slash[1] == 0 || strlen(slash + 1) + sizeof aside_word + 11 > NAME_MAX)
        fail(1, "%s: not the name of a file, or too long a name", path);
    if (aside_of(slash + 1))
        fail(1, "%s: no image has such a name, which is that of a file being written", path);
    strcpy(place.name, slash + 1);
    int length = snprintf(place.aside, sizeof place.aside, ".%s%s%ld", place.name, aside_word, (long)getpid());
    if ((size_t)length >= sizeof place.aside)
        fail(1, "%s: too long a name", path);
    slash[1] = 0;
    place.folder = open(whole, O_RDONLY | O_DIRECTORY | O_CLOEXEC);
    if (place.folder < 0)
        fail(1, "%s: %s", whole, strerror(errno));
    return place;
}

/* Opens and locks the image. Whoever held the lock may have replaced the file: then the lock is one on a file that
   has no name any more, and the file that has it now is tried. */
static int open_locked(const struct place *place, struct stat *found) {
    for (;;) {
        struct stat named;
        int file = openat(place->folder, place->name, O_RDONLY | O_CLOEXEC | O_NONBLOCK);
        if (file < 0 || fstat(file, found) != 0)
            fail(1, "%s: %s", place->name, strerror(errno));
        if (!S_ISREG(found->st_mode))
            fail(1, "%s is no image", place->name);
        while (flock(file, LOCK_EX) != 0)
            if (errno != EINTR)
                fail(1, "%s cannot be locked: %s", place->name, strerror(errno));
        if (fstatat(place->folder, place->name, &named, AT_SYMLINK_NOFOLLOW) == 0 && named.st_dev == found->st_dev &&
            named.st_ino == found->st_ino)
            return file;
        close(file);
    }
}

/* Removes what earlier hosts left beside this image when they were cut off. */
static void clear_up(const struct place *place) {
    int folder = openat(place->folder, ".", O_RDONLY | O_DIRECTORY | O_CLOEXEC);
    DIR *names = folder < 0 ? NULL : fdopendir(folder);
    const struct dirent *entry;
    size_t length = strlen(place->name);
    while (names && (entry = readdir(names)) != NULL) {
        struct stat found;
        if (aside_of(entry->d_name) != length || memcmp(entry->d_name + 1, place->name, length) != 0)
            continue;
        int file = openat(place->folder, entry->d_name, O_RDONLY | O_NOFOLLOW | O_CLOEXEC | O_NONBLOCK);
        if (file >= 0 && fstat(file, &found) == 0 && S_ISREG(found.st_mode) && found.st_uid == geteuid() &&
            flock(file, LOCK_EX | LOCK_NB) == 0)
            unlinkat(place->folder, entry->d_name, 0);
        if (file >= 0)
            close(file);
    }
    if (names)
        closedir(names);
}

/* Reads to the end of the file, at most `most` bytes and one more. */
static size_t read_up_to(int file, uint8_t *into, size_t most) {
    size_t length = 0;
    while (length <= most) {
        ssize_t got = read(file, into + length, most + 1 - length);
        if (got < 0 && errno == EINTR)
            continue;
        if (got < 0)
            fail(1, "reading: %s", strerror(errno));
        if (got == 0)
            break;
        length += (size_t)got;
    }
    return length;
}

static int write_all(int file, const uint8_t *bytes, size_t length) {
    while (length > 0) {
        ssize_t put = write(file, bytes, length);
        if (put < 0 && errno == EINTR)
            continue;
        if (put < 0)
            return -1;
        bytes += put;
        length -= (size_t)put;
    }
    return 0;
}

/* The last of the letters that an image begins with: 4, 3 of before 0.7.0, 2 of before 0.6.0, 1 of before 0.3.0; 0 where it is
   none. */
static int form_of(const uint8_t *header) {
    int form = header[7] - '0';
    return memcmp(header, magic, 7) == 0 && form >= 1 && form <= FORM ? form : 0;
}

/* Zeros in the midst of bytes, of which there are so many; those behind move up. How many there are then. */
static size_t put_in(uint8_t *bytes, size_t have, size_t at, size_t zeros) {
    memmove(bytes + at + zeros, bytes + at, have - at);
    memset(bytes + at, 0, zeros);
    return have + zeros;
}

/* The pages of the live disk: those that the file has; where it has none, as many as the head says, if so many can be. */
static uint32_t disk_pages(const uint8_t *header) {
    uint32_t in_file = number_at(header + DISK_AT), size = number_at(header + HEADER + KIZMOOLET_HEAD_PAGES_AT);
    return in_file ? in_file : size <= ROWS_MOST ? size : 0;
}

/* How long an image with this header is, of which a file has so many bytes; 0 where that is no image: a file has all
   tables, marks and disk for all the pages it says, and whole pages of the slab. */
static size_t whole_length(const uint8_t *header, size_t have, int form) {
    uint32_t places = number_at(header + 16), in_file = number_at(header + DISK_AT);
    size_t whole = image_length(number_at(header + 8), number_at(header + 12), places, in_file);
    have += form < 2 ? HEAD - OLD_HEAD + NAMES : 0;
    have += form < 4 ? (BRANCH - OLD_BRANCH) * (size_t)number_at(header + 8) : 0;
    if (whole > image_length(BRANCHES_MOST, ROWS_MOST, ROWS_MOST, ROWS_MOST) || have > whole ||
        whole - have > PAGE * (size_t)places || (whole - have) % PAGE != 0)
        return 0;
    return whole + LIVE * (size_t)(disk_pages(header) - in_file);
}

/* Branch rows of before 0.7.0 get a work order, 0; what lies behind them moves up. How many bytes there are then. */
static size_t widen(struct image *image, size_t have) {
    size_t rows = image->branches_len / BRANCH, end = (size_t)(image->branches - image->bytes) + OLD_BRANCH * rows;
    uint8_t *old = room(OLD_BRANCH * rows);
    memcpy(old, image->branches, OLD_BRANCH * rows);
    have = put_in(image->bytes, have, end, (BRANCH - OLD_BRANCH) * rows);
    kizmoolet_widen_branches(old, rows, image->branches);
    free(old);
    return have;
}

/* What a file leaves out, of which there are so many bytes, is put in as zeros. There is room for the whole image. */
static void bring_up(struct image *image, size_t have, int form) {
    uint8_t *bytes = image->bytes;
    uint32_t in_file = number_at(bytes + DISK_AT);
    lay_out(image, disk_pages(bytes));
    if (form < 2)
        have = put_in(bytes, have, HEADER + OLD_HEAD, HEAD - OLD_HEAD);
    if (form < 4)
        have = widen(image, have);
    if (form < 2)
        have = put_in(bytes, have, (size_t)(image->names - bytes), NAMES);
    if (in_file == 0)
        have = put_in(bytes, have, (size_t)(image->marks - bytes), LIVE * image->marks_len);
    memset(bytes + have, 0, image->length - have);
    memcpy(bytes, magic, 8);
    image->live_in_file = LIVE * (size_t)in_file;
    image->slab_in_file = have - (size_t)(image->slab - bytes);
}

/* The image in a file. What the file leaves out is zero. */
static struct image load(const struct place *place, int file, const struct stat *found) {
    struct image image;
    size_t have = (size_t)found->st_size;
    if (found->st_size < OLD_HEADER + OLD_HEAD || have > image_length(BRANCHES_MOST, ROWS_MOST, ROWS_MOST, ROWS_MOST))
        fail(1, "%s is no image", place->name);
    image.bytes = room(have + HEADER - OLD_HEADER + 1);
    if (read_up_to(file, image.bytes, have) != have)
        fail(1, "%s changed its length while it was read", place->name);
    uint32_t crc = crc32_on(crc32_on(0, image.bytes, CHECKSUM_AT), image.bytes + CHECKSUM_AT + 4, have - CHECKSUM_AT - 4);
    int form = form_of(image.bytes);
    if (form < 3)
        have = put_in(image.bytes, have, DISK_AT, HEADER - OLD_HEADER);
    image.length = form ? whole_length(image.bytes, have, form) : 0;
    if (image.length == 0)
        fail(1, "%s is no image, or not as long as its header says", place->name);
    if (number_at(image.bytes + CHECKSUM_AT) != crc)
        fail(1, "%s is damaged: its checksum is not that of its bytes", place->name);
    image.bytes = realloc(image.bytes, image.length);
    if (!image.bytes)
        fail(1, "no memory for %zu bytes", image.length);
    bring_up(&image, have, form);
    if (image.slab_in_file < kizmoolet_slab_in_use(image.places, image.places_len))
        fail(1, "%s is no image: it ends before its last page in use", place->name);
    return image;
}

/* The same image in memory of its own. */
static struct image twin_of(const struct image *image) {
    struct image twin = *image;
    twin.bytes = room(image->length);
    memcpy(twin.bytes, image->bytes, image->length);
    lay_out(&twin, (uint32_t)image->marks_len);
    return twin;
}

static void must_be_writable(const struct place *place, const struct stat *found) {
    int file = -1;
    errno = EACCES; /* without any permission to write, not even root writes */
    if (found->st_mode & 0222)
        file = openat(place->folder, place->name, O_WRONLY | O_CLOEXEC | O_NONBLOCK);
    if (file < 0)
        fail(1, "%s may not be written (%s): nothing was carried out", place->name, strerror(errno));
    close(file);
}

static int write_content(int file, const struct content *content) {
    for (int at = 0; at < 3; at++)
        if (write_all(file, content->part[at].bytes, content->part[at].length) != 0)
            return -1;
    return 0;
}

/* Writes a file that is not there yet, forced to the disk. It stays open and locked: a host that opens it under its
   new name waits until this one has ended, when the folder too is on the disk. */
static void write_new(const struct place *place, const char *name, const struct content *content, const struct stat *like) {
    struct stat made;
    int file = openat(place->folder, name, O_WRONLY | O_CREAT | O_EXCL | O_CLOEXEC, 0600);
    if (file < 0)
        fail(1, "%s: %s", name, strerror(errno));
    flock(file, LOCK_EX | LOCK_NB);
    if (write_content(file, content) != 0 || fstat(file, &made) != 0 ||
        ((made.st_uid != like->st_uid || made.st_gid != like->st_gid) && fchown(file, like->st_uid, like->st_gid) != 0) ||
        fchmod(file, like->st_mode & 07777) != 0 || fsync(file) != 0) {
        int why = errno;
        unlinkat(place->folder, name, 0);
        fail(1, "%s could not be written with the owner and mode of %s: %s; nothing was carried out", name, place->name,
            strerror(why));
    }
}

static void force_folder(const struct place *place) {
    if (fsync(place->folder) != 0)
        fail(4, "the folder of %s: %s; the file has its new bytes, but a cut of power may bring the old ones back",
            place->name, strerror(errno));
}

/* The new image beside the old one, forced to the disk; then the name; then the folder, forced to the disk. */
static void replace(const struct place *place, struct image *image, const struct stat *like) {
    image->live_in_file = LIVE * image->marks_len;
    image->slab_in_file = image->slab_len;
    struct content file = file_of(image);
    clear_up(place);
    write_new(place, place->aside, &file, like);
    if (renameat(place->folder, place->aside, place->folder, place->name) != 0) {
        int why = errno;
        unlinkat(place->folder, place->aside, 0);
        fail(1, "%s: %s", place->name, strerror(why));
    }
    force_folder(place);
}

/* A new file under a name that nothing has. */
static void put_new(const struct place *place, const struct content *file, const struct stat *like) {
    clear_up(place);
    write_new(place, place->aside, file, like);
    int status = renameat2(place->folder, place->aside, place->folder, place->name, RENAME_NOREPLACE);
    if (status != 0 && (errno == EINVAL || errno == ENOSYS)) { /* a file system that cannot: by another name */
        status = linkat(place->folder, place->aside, place->folder, place->name, 0);
        if (status == 0)
            unlinkat(place->folder, place->aside, 0);
    }
    if (status != 0) {
        int why = errno;
        unlinkat(place->folder, place->aside, 0);
        fail(1, "%s: %s", place->name, why == EEXIST ? "is there already" : strerror(why));
    }
    force_folder(place);
}

static uint32_t number_in(const char *word, const char *what, uint32_t most) {
    char *end;
    errno = 0;
    unsigned long long value = strtoull(word, &end, 10);
    if (word[0] < '0' || word[0] > '9' || *end || errno || value > most)
        fail(2, "%s is not a number up to %lu: %s", what, (unsigned long)most, word);
    return (uint32_t)value;
}

/* All zero: every page of the live disk is stale. */
static struct image empty_image(uint32_t branches, uint32_t records, uint32_t places, uint32_t pages) {
    struct image image;
    image.length = image_length(branches, records, places, pages);
    image.bytes = room(image.length);
    memset(image.bytes, 0, image.length);
    memcpy(image.bytes, magic, 8);
    put_number(image.bytes + 8, branches);
    put_number(image.bytes + 12, records);
    put_number(image.bytes + 16, places);
    lay_out(&image, pages);
    image.live_in_file = LIVE * image.marks_len;
    image.slab_in_file = image.slab_len;
    return image;
}

/* Nothing may have the name of a new file. Its mode, and its owner, who is the caller. */
static struct stat of_caller(const struct place *place, const char *path, mode_t mode) {
    struct stat like;
    if (fstatat(place->folder, place->name, &like, AT_SYMLINK_NOFOLLOW) == 0)
        fail(1, "%s is there already", path);
    if (fstat(place->folder, &like) != 0)
        fail(1, "%s: %s", path, strerror(errno));
    like.st_uid = geteuid();
    if (!(like.st_mode & S_ISGID)) /* else the folder's group is the file's too */
        like.st_gid = getegid();
    like.st_mode = mode;
    return like;
}

static int make(const char *path, char **sizes) {
    uint32_t size = number_in(sizes[0], "the volume's size", ROWS_MOST);
    uint32_t branches = number_in(sizes[1], "the number of branch rows", BRANCHES_MOST);
    uint32_t records = number_in(sizes[2], "the number of record rows", ROWS_MOST);
    uint32_t places = number_in(sizes[3], "the number of places", ROWS_MOST);
    mode_t mask = umask(0);
    umask(mask);
    struct place place = find_place(path);
    struct stat like = of_caller(&place, path, 0666 & ~mask);
    struct image image = empty_image(branches, records, places, size);
    uint32_t refusal = kizmoolet_fresh(size, STORE(&image));
    if (refusal)
        fail(1, "refusal %lu: size, branches, records and places must each be at least 1", (unsigned long)refusal);
    struct content file = file_of(&image);
    put_new(&place, &file, &like);
    return 0;
}

/* What a call of the library reports. */
struct done {
    uint32_t stop;
    uint64_t answered, request_bytes, answer_bytes, rows_read;
};

static struct done call(
    struct image *image, const uint8_t *batch, size_t batch_len, uint8_t *answers, size_t answers_len) {
    struct done done;
    done.stop = kizmoolet_batch(STORE(image), DISK(image), batch, batch_len, answers, answers_len, &done.answered,
        &done.request_bytes, &done.answer_bytes, &done.rows_read);
    return done;
}

static uint32_t places_in_use(const struct image *image) {
    uint32_t in_use = 0;
    for (size_t at = 0; at < image->places_len; at += KIZMOOLET_PLACE_BYTES)
        in_use += number_at(image->places + at) != 0;
    return in_use;
}

/* What is wrong where the stop number is 3. The last row read is the first that breaks a rule; where all were read, and not
   as many places are in use, it may be that no row does. */
static const char *broken_rule(const struct image *image, uint64_t rows_read) {
    static char words[256];
    char only[80] = "";
    uint32_t count = number_at(image->head + KIZMOOLET_HEAD_RECORDS_AT), in_use = places_in_use(image);
    if (rows_read == count && in_use != count)
        snprintf(only, sizeof only, "only the number of places in use is wrong: %lu", (unsigned long)in_use);
    if (rows_read == 0) {
        strcpy(words, only);
        return words;
    }
    const uint8_t *row = image->records + KIZMOOLET_RECORD_BYTES * (rows_read - 1);
    snprintf(words, sizeof words, "record row %llu breaks a rule: address %lu, moment %lu, place %lu%s%s",
        (unsigned long long)rows_read - 1, (unsigned long)number_at(row), (unsigned long)number_at(row + 4),
        (unsigned long)number_at(row + 8), only[0] ? "; or no row does, and " : "", only);
    return words;
}

/* What is wrong where the stop number is 18, and the way on. */
static const char *unfit_disk(const struct image *image) {
    static char words[256];
    char what[128] = "";
    uint32_t size = number_at(image->head + KIZMOOLET_HEAD_PAGES_AT);
    size_t at = 0;
    while (at < image->marks_len && image->marks[at] <= (KIZMOOLET_MARK_CURRENT | KIZMOOLET_MARK_BLANK))
        at++;
    if (image->marks_len != size)
        snprintf(what, sizeof what, "the live disk has %zu pages, and the volume %lu", image->marks_len,
            (unsigned long)size);
    else if (at < image->marks_len)
        snprintf(what, sizeof what, "page %zu of the live disk has mark %u, and none is above 3", at, image->marks[at]);
    snprintf(words, sizeof words, "%s; head and tables are sound: host copy makes a store of them, without the live disk",
        what);
    return words;
}

/* Why the library does not take the store, behind the stop number; nothing with 1 and 2, and where a request stopped. */
static const char *why_not(const struct image *image, const struct done *done) {
    return done->stop == KIZMOOLET_RECORDS_UNSOUND ? broken_rule(image, done->rows_read)
        : done->stop == KIZMOOLET_DISK_UNFIT       ? unfit_disk(image)
                                                   : "";
}

/* The batch on standard input, in memory that grows with it. */
static uint8_t *read_batch(size_t *length) {
    size_t most = 1 << 16;
    uint8_t *batch = room(most + 1);
    *length = 0;
    for (;;) {
        *length += read_up_to(0, batch + *length, most - *length);
        if (*length <= most)
            return batch;
        if (most == BATCH_MOST)
            fail(1, "the batch is longer than %d bytes: nothing was carried out", BATCH_MOST);
        most *= 2;
        batch = realloc(batch, most + 1);
        if (!batch)
            fail(1, "no memory for %zu bytes", most + 1);
    }
}

/* The bytes that the request at the start of these takes, or 0 where the store cannot read one. */
static size_t request_length(const uint8_t *at, size_t left) {
    uint32_t operation = left > 0 ? at[0] >> 5 : 0;
    size_t length = operation == WRITE ? KIZMOOLET_WRITE_BYTES
        : operation == NAME || operation == WITHDRAW ? KIZMOOLET_NAMED_BYTES : KIZMOOLET_REQUEST_BYTES;
    return left < length || operation == 0 ? 0 : length;
}

/* The longest that the answers to a batch can be: with such an area no batch stops with 14. */
static size_t longest_answers(const uint8_t *batch, size_t length) {
    size_t longest = 0, takes;
    for (size_t at = 0; (takes = request_length(batch + at, length - at)) != 0; at += takes)
        longest += batch[at] >> 5 == READ ? PAGE_ANSWER : ANSWER;
    return longest;
}

/* How many of the answers are refusals; and the bytes of the requests up to and with the first one refused. */
static uint64_t refused_of(const uint8_t *answers, const uint8_t *batch, const struct done *done, size_t *first_end) {
    uint64_t refused = 0;
    size_t answer = 0, request = 0;
    for (uint64_t at = 0; at < done->answered; at++) {
        request += request_length(batch + request, (size_t)done->request_bytes - request);
        if (answers[answer] >> 2 && refused++ == 0)
            *first_end = request;
        answer += answers[answer] & 2 ? PAGE_ANSWER : ANSWER;
    }
    return refused;
}

struct options {
    int stop_at_refusal, all_or_nothing;
    const char *copy;
};

static const char *several(uint64_t count) { return count == 1 ? "" : "s"; }

static uint32_t branch_count(const struct image *image) { return number_at(image->head + KIZMOOLET_HEAD_BRANCHES_AT); }

static int run(const char *path, const char *limit, const struct options *options, const uint8_t *batch, size_t batch_len) {
    size_t first_end = 0;
    size_t answers_len = longest_answers(batch, batch_len);
    if (limit)
        answers_len = number_in(limit, "the length of the answer area", UINT32_MAX);
    uint8_t *answers = room(answers_len + 1);
    struct place place = find_place(path);
    struct stat found;
    int file = open_locked(&place, &found);
    struct image image = load(&place, file, &found), before = twin_of(&image);
    struct done done = call(&image, batch, batch_len, answers, answers_len);
    uint64_t refused = refused_of(answers, batch, &done, &first_end);
    if (refused && options->stop_at_refusal) { /* again from the start, and no further than the first one refused */
        memcpy(image.bytes, before.bytes, image.length);
        done = call(&image, batch, first_end, answers, answers_len);
        refused = refused_of(answers, batch, &done, &first_end);
    }
    int undone = options->all_or_nothing && (refused || done.stop);
    /* reads change nothing, and need no new image */
    if (!undone && memcmp(before.bytes, image.bytes, image.length) != 0) {
        must_be_writable(&place, &found);
        if (options->copy) {
            struct content kept = file_of(&before);
            write_new(&place, options->copy, &kept, &found);
            copy_name = options->copy;
            copy_folder = place.folder;
            if (fsync(place.folder) != 0)
                fail(1, "the folder of %s: %s; nothing was carried out", place.name, strerror(errno));
        }
        replace(&place, &image, &found);
        if (options->copy)
            fprintf(stderr, "copy %s\n", options->copy);
    }
    answers[done.answer_bytes] = (uint8_t)done.stop;
    if (write_all(1, answers, (size_t)done.answer_bytes + 1) != 0)
        fail(4, "the answers could not be written: %s; the requests are carried out", strerror(errno));
    fprintf(stderr, "stop %lu: %llu request%s answered, %llu refused, %llu bytes of requests, %llu bytes of answers",
        (unsigned long)done.stop, (unsigned long long)done.answered, several(done.answered), (unsigned long long)refused,
        (unsigned long long)done.request_bytes, (unsigned long long)done.answer_bytes);
    fprintf(stderr, ", %llu record row%s read", (unsigned long long)done.rows_read, several(done.rows_read));
    const char *why = why_not(&image, &done);
    fprintf(stderr, "%s%s", why[0] ? "; " : "", why);
    if (undone)
        fputs("; nothing was carried out", stderr);
    if (!undone && (done.stop == KIZMOOLET_OK || (done.stop >= KIZMOOLET_CUT_SHORT && done.stop <= KIZMOOLET_ANSWERS_FULL)))
        fprintf(stderr, "; branches: %lu before, %lu after", (unsigned long)branch_count(&before),
            (unsigned long)branch_count(&image));
    fputc('\n', stderr);
    return undone ? 6 : done.stop ? 3 : refused ? 5 : 0;
}

/* One revert, with the work order that is quoted. */
static int revert(const char *path, const char *moment, const char *order, const struct options *options) {
    uint8_t batch[KIZMOOLET_REQUEST_BYTES];
    struct kizmoolet_requests requests = kizmoolet_requests_in(batch, sizeof batch);
    uint32_t quoted = order ? number_in(order, "the work order", KIZMOOLET_MOST_ORDER) : 0;
    kizmoolet_add_revert(&requests, number_in(moment, "the moment", UINT32_MAX), quoted);
    return run(path, NULL, options, batch, requests.length);
}

static const char *const table_rows[3] = {"branch rows", "record rows", "places"};

/* The numbers of rows that are asked for. */
static void rows_in(char **sizes, uint32_t *rows) {
    static const uint32_t most[3] = {BRANCHES_MOST, ROWS_MOST, ROWS_MOST};
    for (int at = 0; at < 3; at++)
        rows[at] = number_in(sizes[at], table_rows[at], most[at]);
}

/* The same head, rows and pages, with zero rows and free places behind them, and the live disk if it is to be kept; as
   many rows as before where none are asked for. The library looks at the tables, before and after. */
static struct image enlarged(const char *path, struct image *image, const uint32_t *asked, int with_disk) {
    uint32_t rows[3];
    for (int at = 0; at < 3; at++) {
        uint32_t were = number_at(image->bytes + 8 + 4 * at);
        rows[at] = asked ? asked[at] : were;
        if (rows[at] < were)
            fail(1, "%s has %lu %s, and gets no fewer", path, (unsigned long)were, table_rows[at]);
    }
    struct done done = call(image, NULL, 0, NULL, 0);
    if (done.stop && (with_disk || done.stop != KIZMOOLET_DISK_UNFIT)) {
        const char *what = done.stop == KIZMOOLET_DISK_UNFIT ? "the live disk does not fit, and stays as it is"
                                                             : "the tables are not sound, and stay as they are";
        const char *why = why_not(image, &done);
        fail(1, "stop %lu: %s%s%s", (unsigned long)done.stop, what, why[0] ? "; " : "", why);
    }
    struct image larger = empty_image(rows[0], rows[1], rows[2], number_at(image->head + KIZMOOLET_HEAD_PAGES_AT));
    memcpy(larger.head, image->head, HEAD);
    memcpy(larger.branches, image->branches, image->branches_len);
    memcpy(larger.records, image->records, image->records_len);
    memcpy(larger.places, image->places, image->places_len);
    memcpy(larger.names, image->names, NAMES);
    memcpy(larger.slab, image->slab, image->slab_len);
    if (with_disk) {
        memcpy(larger.marks, image->marks, image->marks_len);
        memcpy(larger.disk, image->disk, image->disk_len);
    }
    done = call(&larger, NULL, 0, NULL, 0);
    if (done.stop)
        fail(1, "stop %lu: the tables are not sound, and stay as they are", (unsigned long)done.stop);
    return larger;
}

static int grow(const char *path, char **sizes) {
    uint32_t rows[3];
    rows_in(sizes, rows);
    struct place place = find_place(path);
    struct stat found;
    int file = open_locked(&place, &found);
    struct image image = load(&place, file, &found), larger = enlarged(path, &image, rows, 1);
    must_be_writable(&place, &found);
    replace(&place, &larger, &found);
    return 0;
}

/* The file TO has all but the live disk and what lies in the slab behind the last page in use. */
static int copy(const char *path, const char *to, char **sizes) {
    uint32_t rows[3];
    if (sizes)
        rows_in(sizes, rows);
    struct place place = find_place(path), new_place = find_place(to);
    struct stat found;
    int file = open_locked(&place, &found);
    struct stat like = of_caller(&new_place, to, found.st_mode & 0777);
    struct image image = load(&place, file, &found), copied = enlarged(path, &image, sizes ? rows : NULL, 0);
    copied.live_in_file = 0;
    copied.slab_in_file = kizmoolet_slab_in_use(copied.places, copied.places_len);
    struct content content = file_of(&copied);
    put_new(&new_place, &content, &like);
    fprintf(stderr, "copied: %zu bytes, the slab up to byte %zu of %zu, without the live disk\n", length_of(&content),
        copied.slab_in_file, copied.slab_len);
    return 0;
}

/* Says why the library does not take the store, if it does not: the exit status. */
static int untaken(struct image *image) {
    struct done done = call(image, NULL, 0, NULL, 0);
    const char *why = why_not(image, &done);
    if (done.stop)
        fprintf(stderr, "stop %lu%s%s\n", (unsigned long)done.stop, why[0] ? ": " : "", why);
    return done.stop ? 3 : 0;
}

/* The page of an address at now, and where it lies. Nothing is changed. */
static int live(const char *path, const char *word) {
    static const char *const areas[3] = {"none", "disk", "slab"};
    uint32_t address = number_in(word, "the address", UINT32_MAX), area;
    uint64_t offset;
    struct place place = find_place(path);
    struct stat found;
    int file = open_locked(&place, &found);
    struct image image = load(&place, file, &found);
    uint32_t refusal = kizmoolet_live_read(STORE(&image), DISK(&image), address, &area, &offset);
    if (refusal == KIZMOOLET_ADDRESS_TOO_HIGH) {
        fprintf(stderr, "refusal 4: the volume has addresses 0 to %zu\n", image.marks_len - 1);
        return 5;
    }
    if (refusal)
        return untaken(&image);
    const uint8_t *page = kizmoolet_live_page(area, offset, image.disk, image.slab);
    if (page && write_all(1, page, PAGE) != 0)
        fail(1, "the page could not be written: %s", strerror(errno));
    fprintf(stderr, "area %s, offset %llu, mark %u\n", areas[area], (unsigned long long)offset, image.marks[address]);
    return 0;
}

/* A copying step. The image is replaced where a page was brought to date. */
static int step(const char *path, const char *word) {
    uint32_t budget = number_in(word, "the number of pages", UINT32_MAX);
    uint64_t copied;
    struct place place = find_place(path);
    struct stat found;
    int file = open_locked(&place, &found);
    struct image image = load(&place, file, &found);
    if (kizmoolet_copy_step(STORE(&image), DISK(&image), budget, &copied) != KIZMOOLET_OK)
        return untaken(&image);
    if (copied) {
        must_be_writable(&place, &found);
        replace(&place, &image, &found);
    }
    fprintf(stderr, "%llu page%s brought to date, %zu stale\n", (unsigned long long)copied, several(copied),
        kizmoolet_stale_pages(image.marks, image.marks_len));
    return 0;
}

static size_t blank_pages(const struct image *image) {
    size_t blank = 0;
    for (size_t at = 0; at < image->marks_len; at++)
        blank += image->marks[at] == (KIZMOOLET_MARK_CURRENT | KIZMOOLET_MARK_BLANK);
    return blank;
}

/* The live disk as it is, stale and blank pages too, in the new file TO. */
static int disk(const char *path, const char *to) {
    struct place place = find_place(path), new_place = find_place(to);
    struct stat found;
    int file = open_locked(&place, &found);
    struct stat like = of_caller(&new_place, to, found.st_mode & 0777);
    struct image image = load(&place, file, &found);
    if (untaken(&image))
        return 3;
    struct content content = {{{image.disk, image.disk_len}}};
    put_new(&new_place, &content, &like);
    fprintf(stderr, "%zu page%s, %zu stale, %zu blank\n", image.marks_len, several(image.marks_len),
        kizmoolet_stale_pages(image.marks, image.marks_len), blank_pages(&image));
    return 0;
}

/* The work orders of a moment, as the library lists them. The live disk is not looked at, and nothing is changed. */
static int orders(const char *path, const char *word, const char *limit) {
    uint32_t moment = number_in(word, "the moment", UINT32_MAX);
    uint64_t count;
    struct place place = find_place(path);
    struct stat found;
    int file = open_locked(&place, &found);
    struct image image = load(&place, file, &found);
    /* twice the branch count is always enough, and no count that is taken is above the rows lent */
    size_t list_len = image.branches_len / BRANCH * KIZMOOLET_ORDER_BYTES;
    if (limit)
        list_len = number_in(limit, "the length of the list", UINT32_MAX);
    uint8_t *list = room(list_len);
    uint32_t refusal = kizmoolet_work_orders(STORE(&image), moment, list, list_len, &count);
    if (refusal == KIZMOOLET_MOMENT_TOO_EARLY)
        fprintf(stderr, "refusal 8: the moment is below the floor, %lu, and has no name\n",
            (unsigned long)kizmoolet_floor(image.head));
    else if (refusal == KIZMOOLET_MOMENT_TOO_LATE)
        fprintf(stderr, "refusal 9: the moment is above now, %lu\n", (unsigned long)kizmoolet_now(image.head));
    else if (refusal == KIZMOOLET_ANSWERS_FULL)
        fprintf(stderr, "refusal 14: the list does not fit in %zu byte%s\n", list_len, several(list_len));
    else if (refusal)
        return untaken(&image);
    if (refusal)
        return 5;
    if (write_all(1, list, (size_t)count * KIZMOOLET_ORDER_BYTES) != 0)
        fail(1, "the work orders could not be written: %s", strerror(errno));
    fprintf(stderr, "%llu work order%s\n", (unsigned long long)count, several(count));
    return 0;
}

static int usage(void) {
    fputs("usage: host new IMAGE SIZE BRANCHES RECORDS PLACES\n"
          "       host run [--stop-at-refusal | --all-or-nothing] [--copy NAME] IMAGE [ANSWER_BYTES] < batch > answers\n"
          "       host grow IMAGE BRANCHES RECORDS PLACES\n"
          "       host copy IMAGE TO [BRANCHES RECORDS PLACES]\n"
          "       host live IMAGE ADDRESS > page\n"
          "       host step IMAGE N\n"
          "       host disk IMAGE OUT\n"
          "       host revert [--all-or-nothing] [--copy NAME] [--order N] IMAGE MOMENT > answers\n"
          "       host orders IMAGE MOMENT [LIST_BYTES] > orders\n",
        stderr);
    return 2;
}

int main(int count, char **words) {
    struct rlimit stack;
    if (getrlimit(RLIMIT_STACK, &stack) == 0 && stack.rlim_cur != RLIM_INFINITY && stack.rlim_cur < STACK_NEEDED)
        fail(1, "the library takes 1.4 MB of stack: allow 2 MB (ulimit -s 2048)");
    signal(SIGPIPE, SIG_IGN); /* a reader that has gone is a failed write, which is reported */
    if (count == 7 && strcmp(words[1], "new") == 0)
        return make(words[2], words + 3);
    if (count == 6 && strcmp(words[1], "grow") == 0)
        return grow(words[2], words + 3);
    if ((count == 4 || count == 7) && strcmp(words[1], "copy") == 0)
        return copy(words[2], words[3], count == 7 ? words + 4 : NULL);
    if (count == 4 && strcmp(words[1], "live") == 0)
        return live(words[2], words[3]);
    if (count == 4 && strcmp(words[1], "step") == 0)
        return step(words[2], words[3]);
    if (count == 4 && strcmp(words[1], "disk") == 0)
        return disk(words[2], words[3]);
    if ((count == 4 || count == 5) && strcmp(words[1], "orders") == 0)
        return orders(words[2], words[3], count == 5 ? words[4] : NULL);
    int reverting = count > 2 && strcmp(words[1], "revert") == 0;
    if (count < 3 || (!reverting && strcmp(words[1], "run") != 0))
        return usage();
    struct options options = {0, 0, NULL};
    const char *order = NULL;
    int at = 2;
    for (; at < count && strncmp(words[at], "--", 2) == 0; at++)
        if (strcmp(words[at], "--stop-at-refusal") == 0)
            options.stop_at_refusal = 1;
        else if (strcmp(words[at], "--all-or-nothing") == 0)
            options.all_or_nothing = 1;
        else if (strcmp(words[at], "--copy") == 0 && at + 1 < count && !strchr(words[at + 1], '/'))
            options.copy = words[++at];
        else if (reverting && strcmp(words[at], "--order") == 0 && at + 1 < count)
            order = words[++at];
        else
            return usage();
    if (count - at < 1 || count - at > 2 || (options.stop_at_refusal && options.all_or_nothing))
        return usage();
    if (reverting)
        return count - at == 2 ? revert(words[at], words[at + 1], order, &options) : usage();
    size_t batch_len;
    const uint8_t *batch = read_batch(&batch_len);
    return run(words[at], count - at == 2 ? words[at + 1] : NULL, &options, batch, batch_len);
}
