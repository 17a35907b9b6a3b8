/* A cut of power, for the test of the example host: loaded before the C library (LD_PRELOAD), it ends the host just
   before its CUT_AT-th step that matters to the files, and does to the files what a cut may do. Steps are the calls
   below and the end of the program.

   CUT_IMAGE is the path of the image that is replaced or made. CUT_KIND says what becomes of that which was not forced to the disk:
     kept    all of it is there
     lost    nothing of it is there: a file is empty, a rename did not happen
     mixed   a rename happened, and a file's second half is zeros */
#define _GNU_SOURCE
#include <dlfcn.h>
#include <limits.h>
#include <signal.h>
#include <stdio.h>
#include <stdlib.h>
#include <string.h>
#include <sys/stat.h>
#include <unistd.h>

static long steps;
static int unforced = -1; /* another descriptor of the file that was written and not forced */
static int unforced_of = -1;
static int renamed; /* over an older file */
static int appeared; /* under a name that nothing had */

static const char *before(void) {
    static char path[PATH_MAX];
    snprintf(path, sizeof path, "%s.before", getenv("CUT_IMAGE"));
    return path;
}

static void cut(void) {
    const char *kind = getenv("CUT_KIND");
    struct stat file;
    if (unforced >= 0 && strcmp(kind, "lost") == 0 && ftruncate(unforced, 0) != 0)
        abort();
    if (unforced >= 0 && strcmp(kind, "mixed") == 0 &&
        (fstat(unforced, &file) != 0 || ftruncate(unforced, file.st_size / 2) != 0 ||
            ftruncate(unforced, file.st_size) != 0))
        abort();
    if (renamed && strcmp(kind, "lost") == 0 && rename(before(), getenv("CUT_IMAGE")) != 0)
        abort();
    if (appeared && strcmp(kind, "lost") == 0 && unlink(getenv("CUT_IMAGE")) != 0)
        abort();
    kill(getpid(), SIGKILL);
}

static void step(void) {
    const char *at = getenv("CUT_AT");
    if (at && ++steps == atol(at))
        cut();
}

ssize_t write(int file, const void *bytes, size_t length) {
    ssize_t (*real)(int, const void *, size_t) = (ssize_t(*)(int, const void *, size_t))dlsym(RTLD_NEXT, "write");
    step();
    if (file > 2 && unforced_of != file) {
        unforced = dup(file);
        unforced_of = file;
    }
    return real(file, bytes, length);
}

int fsync(int file) {
    int (*real)(int) = (int (*)(int))dlsym(RTLD_NEXT, "fsync");
    struct stat found;
    step();
    int result = real(file);
    if (result == 0 && fstat(file, &found) == 0 && S_ISDIR(found.st_mode))
        renamed = appeared = 0;
    else if (result == 0 && file == unforced_of)
        unforced = unforced_of = -1;
    return result;
}

int renameat(int from_folder, const char *from, int to_folder, const char *to) {
    int (*real)(int, const char *, int, const char *) =
        (int (*)(int, const char *, int, const char *))dlsym(RTLD_NEXT, "renameat");
    step();
    unlink(before());
    if (link(getenv("CUT_IMAGE"), before()) != 0)
        abort();
    renamed = 1;
    return real(from_folder, from, to_folder, to);
}

int renameat2(int from_folder, const char *from, int to_folder, const char *to, unsigned flags) {
    int (*real)(int, const char *, int, const char *, unsigned) =
        (int (*)(int, const char *, int, const char *, unsigned))dlsym(RTLD_NEXT, "renameat2");
    step();
    int result = real(from_folder, from, to_folder, to, flags);
    appeared = result == 0;
    return result;
}

int unlinkat(int folder, const char *name, int flags) {
    int (*real)(int, const char *, int) = (int (*)(int, const char *, int))dlsym(RTLD_NEXT, "unlinkat");
    step();
    return real(folder, name, flags);
}

int fchmod(int file, mode_t mode) {
    int (*real)(int, mode_t) = (int (*)(int, mode_t))dlsym(RTLD_NEXT, "fchmod");
    step();
    return real(file, mode);
}

int close(int file) {
    int (*real)(int) = (int (*)(int))dlsym(RTLD_NEXT, "close");
    step();
    if (file == unforced_of)
        unforced_of = -1; /* the file stays unforced, under the other descriptor */
    return real(file);
}

__attribute__((destructor)) static void end(void) { step(); }
