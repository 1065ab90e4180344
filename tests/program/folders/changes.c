/* Preloaded into a program, this changes folders while the program reads them, by environment variables:
 *   LISTED_TWICE      each listing that has this name has it twice
 *   EXCHANGED         before the program looks at a file of this name for the time of this number,
 *   EXCHANGED_LOOK    counted from 1, or where the number is 0, before it opens the file for the first time,
 *   EXCHANGED_BY      this path is renamed
 *   EXCHANGED_TO      to this one
 *   EXCHANGED_BOTH    and what is there to the first one
 *   UNOPENED          no file or folder of these names, which have a `/` between them, can be opened
 *   SHORTENED         a look at the file of this name finds a byte less
 *   LENGTHENED        a look at the file of this name finds a byte more */
#define _GNU_SOURCE
#include <dirent.h>
#include <dlfcn.h>
#include <errno.h>
#include <fcntl.h>
#include <stdarg.h>
#include <stdio.h>
#include <stdlib.h>
#include <string.h>
#include <sys/stat.h>
#include <unistd.h>

static long looks;
static int is_done;

static const char *text(const char *name) {
    const char *found = getenv(name);
    return found ? found : "";
}

static int has_name(const char *path, const char *name) {
    const char *last = strrchr(path, '/');
    return *name && strcmp(last ? last + 1 : path, name) == 0;
}

/* whether the last name of a path, which may end in `/`, is among those that have a `/` between them */
static int is_among(const char *path, const char *names) {
    size_t end = strlen(path);
    while (end && path[end - 1] == '/') end--;
    size_t start = end;
    while (start && path[start - 1] != '/') start--;
    while (*names) {
        size_t length = strcspn(names, "/");
        if (length && length == end - start && strncmp(names, path + start, length) == 0) return 1;
        names += length + (names[length] == '/');
    }
    return 0;
}

static void exchange(void) {
    unsigned both = *text("EXCHANGED_BOTH") ? RENAME_EXCHANGE : 0;
    if (!is_done) renameat2(AT_FDCWD, text("EXCHANGED_BY"), AT_FDCWD, text("EXCHANGED_TO"), both);
    is_done = 1;
}

/* the record of the name stands once more behind the others */
ssize_t getdents64(int fd, void *buffer, size_t length) {
    ssize_t (*real)(int, void *, size_t) = (ssize_t(*)(int, void *, size_t))dlsym(RTLD_NEXT, "getdents64");
    size_t room = sizeof(struct dirent64);
    ssize_t count = real(fd, buffer, length > 2 * room ? length - room : length);
    for (ssize_t at = 0; at < count;) {
        struct dirent64 *record = (struct dirent64 *)((char *)buffer + at);
        if (has_name(record->d_name, text("LISTED_TWICE")) && count + record->d_reclen <= (ssize_t)length) {
            memcpy((char *)buffer + count, record, record->d_reclen);
            return count + record->d_reclen;
        }
        at += record->d_reclen;
    }
    return count;
}

int statx(int folder, const char *path, int flags, unsigned mask, struct statx *found) {
    int (*real)(int, const char *, int, unsigned, struct statx *) =
        (int (*)(int, const char *, int, unsigned, struct statx *))dlsym(RTLD_NEXT, "statx");
    if (has_name(path, text("EXCHANGED")) && ++looks == atol(text("EXCHANGED_LOOK"))) exchange();
    int result = real(folder, path, flags, mask, found);
    if (result == 0 && has_name(path, text("SHORTENED"))) found->stx_size--;
    if (result == 0 && has_name(path, text("LENGTHENED"))) found->stx_size++;
    return result;
}

static int open_by(const char *name, int folder, const char *path, int flags, mode_t mode) {
    int (*real)(int, const char *, int, ...) = (int (*)(int, const char *, int, ...))dlsym(RTLD_NEXT, name);
    if (has_name(path, text("EXCHANGED")) && atol(text("EXCHANGED_LOOK")) == 0) exchange();
    if (is_among(path, text("UNOPENED"))) {
        errno = EACCES;
        return -1;
    }
    return real(folder, path, flags, mode);
}

int openat(int folder, const char *path, int flags, ...) {
    va_list more;
    va_start(more, flags);
    mode_t mode = va_arg(more, mode_t);
    va_end(more);
    return open_by("openat", folder, path, flags, mode);
}

int open(const char *path, int flags, ...) {
    va_list more;
    va_start(more, flags);
    mode_t mode = va_arg(more, mode_t);
    va_end(more);
    return open_by("openat", AT_FDCWD, path, flags, mode);
}
