/* Preloaded into a program, this lets one of its calls of the file system fail, by environment variables:
 *   CALLS_FROM   calls count from the first one on that has this path
 *   CALL_FAILS   the call of this number fails as on a broken disk, counted from 1
 *   CALLS_FAIL   and all behind it
 *   CALLS_FILE   this file gets a byte for each call that counts */
#define _GNU_SOURCE
#include <dirent.h>
#include <dlfcn.h>
#include <errno.h>
#include <fcntl.h>
#include <stdarg.h>
#include <stdlib.h>
#include <string.h>
#include <sys/stat.h>
#include <sys/syscall.h>
#include <unistd.h>

static long calls;
static int has_begun;

static const char *text(const char *name) {
    const char *found = getenv(name);
    return found ? found : "";
}

/* counts a call, which may have a path, and returns whether it fails */
static int fails(const char *path) {
    const char *file = text("CALLS_FILE");
    const char *from = text("CALLS_FROM");
    if (path && *from && strncmp(path, from, strlen(from)) == 0) has_begun = 1;
    if (!has_begun) return 0;
    if (*file) {
        int counted = (int)syscall(SYS_openat, AT_FDCWD, file, O_WRONLY | O_APPEND | O_CREAT, 0600);
        if (syscall(SYS_write, counted, ".", 1) != 1) abort();
        syscall(SYS_close, counted);
    }
    long number = atol(text("CALL_FAILS"));
    calls++;
    if (!number || calls < number || (calls > number && !*text("CALLS_FAIL"))) return 0;
    errno = EIO;
    return 1;
}

static void *real(const char *name) { return dlsym(RTLD_NEXT, name); }

int statx(int folder, const char *path, int flags, unsigned mask, struct statx *found) {
    if (fails(path)) return -1;
    return ((int (*)(int, const char *, int, unsigned, struct statx *))real("statx"))(folder, path, flags, mask, found);
}

int openat(int folder, const char *path, int flags, ...) {
    va_list more;
    va_start(more, flags);
    mode_t mode = va_arg(more, mode_t);
    va_end(more);
    if (fails(path)) return -1;
    return ((int (*)(int, const char *, int, ...))real("openat"))(folder, path, flags, mode);
}

int open(const char *path, int flags, ...) {
    va_list more;
    va_start(more, flags);
    mode_t mode = va_arg(more, mode_t);
    va_end(more);
    if (fails(path)) return -1;
    return ((int (*)(const char *, int, ...))real("open"))(path, flags, mode);
}

ssize_t getdents64(int fd, void *buffer, size_t length) {
    if (fails(NULL)) return -1;
    return ((ssize_t(*)(int, void *, size_t))real("getdents64"))(fd, buffer, length);
}

ssize_t pread64(int fd, void *bytes, size_t count, off64_t place) {
    if (fails(NULL)) return -1;
    return ((ssize_t(*)(int, void *, size_t, off64_t))real("pread64"))(fd, bytes, count, place);
}

ssize_t pread(int fd, void *bytes, size_t count, off_t place) {
    if (fails(NULL)) return -1;
    return ((ssize_t(*)(int, void *, size_t, off_t))real("pread"))(fd, bytes, count, place);
}
