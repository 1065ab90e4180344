/* Preloaded into a program, this changes a file while the program reads it, by environment variables:
 *   STATE_OF     the path of the file
 *   STATE_WHEN   `open`: before the program opens it for the first time; `read`: after its first read of it; `end`: after
 *                the read that brings its last byte
 *   STATE_DO     `write`: its bytes become `x`, and its modification time is as before; `rename`: the file STATE_BY takes
 *                its place; `touch`: its rights change and change back
 *   STATE_GROWS  this file gets a byte then, if it is named
 *   OPENS_TO     this file gets a line for each file below a folder that the program opens for reading: its name */
#define _GNU_SOURCE
#include <dlfcn.h>
#include <fcntl.h>
#include <stdarg.h>
#include <stdio.h>
#include <stdlib.h>
#include <string.h>
#include <sys/stat.h>
#include <sys/syscall.h>
#include <unistd.h>

static int is_done;

static const char *text(const char *name) {
    const char *found = getenv(name);
    return found ? found : "";
}

static const char *last_of(const char *path) {
    const char *last = strrchr(path, '/');
    return last ? last + 1 : path;
}

static int is_meant(const char *path) { return *text("STATE_OF") && strcmp(last_of(path), last_of(text("STATE_OF"))) == 0; }

/* calls of the system, which this library does not see itself */
static int open_by(const char *path, int flags) { return (int)syscall(SYS_openat, AT_FDCWD, path, flags, 0600); }

static void add(const char *path, const char *bytes) {
    int file = open_by(path, O_WRONLY | O_APPEND | O_CREAT);
    if (syscall(SYS_write, file, bytes, strlen(bytes)) < 0) abort();
    syscall(SYS_close, file);
}

static void change(void) {
    const char *path = text("STATE_OF"), *how = text("STATE_DO");
    struct stat before;
    if (is_done || stat(path, &before)) return;
    is_done = 1;
    if (strcmp(how, "write") == 0) {
        int file = open_by(path, O_WRONLY);
        char *bytes = malloc((size_t)before.st_size + 1);
        if (!bytes) abort();
        memset(bytes, 'x', (size_t)before.st_size);
        if (syscall(SYS_write, file, bytes, before.st_size) != before.st_size) abort();
        free(bytes);
        struct timespec times[2] = {before.st_atim, before.st_mtim};
        if (futimens(file, times)) abort();
        syscall(SYS_close, file);
    } else if (strcmp(how, "rename") == 0) {
        if (rename(text("STATE_BY"), path)) abort();
    } else if (strcmp(how, "touch") == 0) {
        if (chmod(path, 0600) || chmod(path, before.st_mode & 07777)) abort();
    }
    if (*text("STATE_GROWS")) add(text("STATE_GROWS"), "Z");
}

static int opened(const char *name, int folder, const char *path, int flags, mode_t mode) {
    int (*real)(int, const char *, int, ...) = (int (*)(int, const char *, int, ...))dlsym(RTLD_NEXT, name);
    if (is_meant(path) && strcmp(text("STATE_WHEN"), "open") == 0) change();
    int file = real(folder, path, flags, mode);
    struct stat found;
    if (file >= 0 && *text("OPENS_TO") && (flags & O_ACCMODE) == O_RDONLY && fstat(file, &found) == 0 && S_ISREG(found.st_mode)) {
        char line[300];
        snprintf(line, sizeof line, "%s\n", last_of(path));
        add(text("OPENS_TO"), line);
    }
    return file;
}

int openat(int folder, const char *path, int flags, ...) {
    va_list more;
    va_start(more, flags);
    mode_t mode = va_arg(more, mode_t);
    va_end(more);
    return opened("openat", folder, path, flags, mode);
}

int open(const char *path, int flags, ...) {
    va_list more;
    va_start(more, flags);
    mode_t mode = va_arg(more, mode_t);
    va_end(more);
    return opened("openat", AT_FDCWD, path, flags, mode);
}

static ssize_t read_from(const char *name, int fd, void *bytes, size_t count, off64_t place) {
    ssize_t (*real)(int, void *, size_t, off64_t) = (ssize_t(*)(int, void *, size_t, off64_t))dlsym(RTLD_NEXT, name);
    char link[64], path[4096];
    struct stat found;
    snprintf(link, sizeof link, "/proc/self/fd/%d", fd);
    ssize_t length = readlink(link, path, sizeof path - 1), came = real(fd, bytes, count, place);
    path[length < 0 ? 0 : length] = 0;
    if (came < 0 || !is_meant(path) || fstat(fd, &found)) return came;
    int is_end = place + came >= found.st_size;
    if (strcmp(text("STATE_WHEN"), "read") == 0 && !is_end) change();
    if (strcmp(text("STATE_WHEN"), "end") == 0 && is_end) change();
    return came;
}

ssize_t pread(int fd, void *bytes, size_t count, off_t place) { return read_from("pread", fd, bytes, count, place); }

ssize_t pread64(int fd, void *bytes, size_t count, off64_t place) { return read_from("pread64", fd, bytes, count, place); }
