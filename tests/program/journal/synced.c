// For LD_PRELOAD: notes how much of a journal is on the disk. Behind each fdatasync or fsync that succeeded the file SYNCED
// has, as text, the number of bytes that the synced file had before the call, if its path ends with JOURNAL. If REPLACEMENT
// names a file, that file takes the journal's name just before the journal is locked.
#define _GNU_SOURCE
#include <dlfcn.h>
#include <fcntl.h>
#include <stdio.h>
#include <stdlib.h>
#include <string.h>
#include <sys/file.h>
#include <sys/stat.h>
#include <unistd.h>

static char path[4096];

static int is_journal(int fd) {
    char link[64];
    const char *name = getenv("JOURNAL");
    snprintf(link, sizeof link, "/proc/self/fd/%d", fd);
    ssize_t size = readlink(link, path, sizeof path - 1);
    if (!name || size < 0) {
        return 0;
    }
    path[size] = 0;
    size_t length = strlen(name);
    return (size_t)size >= length && strcmp(path + size - length, name) == 0;
}

static void note(long long size) {
    char text[32];
    int fd = open(getenv("SYNCED"), O_WRONLY | O_CREAT, 0600);
    int length = snprintf(text, sizeof text, "%020lld\n", size);
    if (fd < 0 || pwrite(fd, text, length, 0) != length) {
        abort();
    }
    close(fd);
}

static int noted(int fd, const char *name) {
    struct stat found;
    int (*real)(int) = (int (*)(int))dlsym(RTLD_NEXT, name);
    int known = is_journal(fd) && fstat(fd, &found) == 0;
    int done = real(fd);
    if (known && done == 0) {
        note(found.st_size);
    }
    return done;
}

int fdatasync(int fd) {
    return noted(fd, "fdatasync");
}

int fsync(int fd) {
    return noted(fd, "fsync");
}

int flock(int fd, int how) {
    int (*real)(int, int) = (int (*)(int, int))dlsym(RTLD_NEXT, "flock");
    const char *other = getenv("REPLACEMENT");
    if (other && is_journal(fd) && rename(other, path) != 0) {
        abort();
    }
    return real(fd, how);
}
