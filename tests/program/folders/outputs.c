/* Preloaded into a program, this lets one of the calls fail by which it writes a file, by environment variables:
 *   OUTPUTS      only calls for files whose path has this in it count: creating, writing, `fsync` and `fdatasync`, the
 *                `fchmod` that takes the mark of an unfinished file away, `rename`; and `fsync` of a folder
 *   CALL_FAILS   the call of this number fails as on a broken disk, counted from 1
 *   CALLS_FILE   this file gets the name of the call that fails */
#define _GNU_SOURCE
#include <dlfcn.h>
#include <errno.h>
#include <fcntl.h>
#include <stdarg.h>
#include <stdio.h>
#include <stdlib.h>
#include <string.h>
#include <sys/stat.h>
#include <sys/syscall.h>
#include <unistd.h>

static long calls;

static const char *text(const char *name) {
    const char *found = getenv(name);
    return found ? found : "";
}

static void *real(const char *name) { return dlsym(RTLD_NEXT, name); }

static int fails(const char *call, const char *path) {
    if (!*text("OUTPUTS") || !strstr(path, text("OUTPUTS")) || ++calls != atol(text("CALL_FAILS"))) return 0;
    int file = (int)syscall(SYS_openat, AT_FDCWD, text("CALLS_FILE"), O_WRONLY | O_TRUNC | O_CREAT, 0600);
    if (syscall(SYS_write, file, call, strlen(call)) < 0) abort();
    syscall(SYS_close, file);
    errno = EIO;
    return 1;
}

/* the path of an open file, and whether it is that of an output */
static int fails_at(const char *call, int fd) {
    char link[64], path[4096];
    struct stat found;
    snprintf(link, sizeof link, "/proc/self/fd/%d", fd);
    ssize_t length = readlink(link, path, sizeof path - 1);
    if (length < 0 || fstat(fd, &found)) return 0;
    path[length] = 0;
    if (S_ISDIR(found.st_mode)) return fails("folder", path);
    return S_ISREG(found.st_mode) && fails(call, path);
}

static int open_by(int folder, const char *path, int flags, mode_t mode) {
    if ((flags & O_CREAT) && fails("create", path)) return -1;
    return ((int (*)(int, const char *, int, ...))real("openat"))(folder, path, flags, mode);
}

int openat(int folder, const char *path, int flags, ...) {
    va_list more;
    va_start(more, flags);
    mode_t mode = va_arg(more, mode_t);
    va_end(more);
    return open_by(folder, path, flags, mode);
}

int open(const char *path, int flags, ...) {
    va_list more;
    va_start(more, flags);
    mode_t mode = va_arg(more, mode_t);
    va_end(more);
    return open_by(AT_FDCWD, path, flags, mode);
}

ssize_t write(int fd, const void *bytes, size_t count) {
    if (fails_at("write", fd)) return -1;
    return ((ssize_t(*)(int, const void *, size_t))real("write"))(fd, bytes, count);
}

int fsync(int fd) { return fails_at("sync", fd) ? -1 : ((int (*)(int))real("fsync"))(fd); }

int fdatasync(int fd) { return fails_at("sync", fd) ? -1 : ((int (*)(int))real("fdatasync"))(fd); }

int fchmod(int fd, mode_t mode) { return !(mode & S_ISVTX) && fails_at("mode", fd) ? -1 : ((int (*)(int, mode_t))real("fchmod"))(fd, mode); }

int rename(const char *from, const char *to) {
    return fails("rename", from) ? -1 : ((int (*)(const char *, const char *))real("rename"))(from, to);
}
