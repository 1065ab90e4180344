/* Preloaded into a program, this interrupts its calls of pread, cuts them short or lets them fail, by environment
 * variables:
 *   PREAD_OF              only calls for files of this name count, are interrupted and fail
 *   PREAD_INTERRUPTIONS   interrupts this many calls first
 *   PREAD_FAILS           lets the call of this number fail, counted from 1
 *   PREAD_WIDTH           a call takes at most this many bytes
 *   PREAD_SLEEPS          each call takes this many milliseconds */
#define _GNU_SOURCE
#include <dlfcn.h>
#include <errno.h>
#include <stdio.h>
#include <stdlib.h>
#include <string.h>
#include <time.h>
#include <unistd.h>

static long calls;

static long number(const char *name, long otherwise) {
    const char *found = getenv(name);
    return found ? atol(found) : otherwise;
}

/* whether calls for this file count */
static int is_meant(int fd) {
    const char *name = getenv("PREAD_OF");
    char link[64], path[4096];
    if (!name) return 1;
    snprintf(link, sizeof link, "/proc/self/fd/%d", fd);
    ssize_t length = readlink(link, path, sizeof path - 1);
    if (length < 0) return 0;
    path[length] = 0;
    const char *last = strrchr(path, '/');
    return strcmp(last ? last + 1 : path, name) == 0;
}

static ssize_t failed(int error) {
    errno = error;
    return -1;
}

static ssize_t read_from(const char *name, int fd, void *bytes, size_t count, off64_t place) {
    ssize_t (*real)(int, void *, size_t, off64_t) = (ssize_t(*)(int, void *, size_t, off64_t))dlsym(RTLD_NEXT, name);
    size_t width = (size_t)number("PREAD_WIDTH", 1L << 40);
    long sleeps = number("PREAD_SLEEPS", 0);
    struct timespec long_enough = {sleeps / 1000, sleeps % 1000 * 1000000};
    if (sleeps) nanosleep(&long_enough, NULL);
    if (is_meant(fd)) {
        calls++;
        if (calls <= number("PREAD_INTERRUPTIONS", 0)) return failed(EINTR);
        if (calls == number("PREAD_FAILS", 0)) return failed(EIO);
    }
    return real(fd, bytes, count < width ? count : width, place);
}

ssize_t pread(int fd, void *bytes, size_t count, off_t place) { return read_from("pread", fd, bytes, count, place); }

ssize_t pread64(int fd, void *bytes, size_t count, off64_t place) { return read_from("pread64", fd, bytes, count, place); }
