// For LD_PRELOAD: a slow disk, and what a service waits for. Each fdatasync takes at least SYNC_MICROSECONDS. The file WAITS
// gets a line for each fdatasync, `sync`, and for each wait for connections: the most milliseconds that it may take.
#define _GNU_SOURCE
#include <dlfcn.h>
#include <fcntl.h>
#include <stdio.h>
#include <stdlib.h>
#include <string.h>
#include <sys/epoll.h>
#include <unistd.h>

static void note(const char *line) {
    static int file = -1;
    if (file < 0) {
        file = open(getenv("WAITS"), O_WRONLY | O_CREAT | O_APPEND | O_CLOEXEC, 0600);
    }
    if (write(file, line, strlen(line)) < 0) {
        abort();
    }
}

int fdatasync(int fd) {
    int (*real)(int) = (int (*)(int))dlsym(RTLD_NEXT, "fdatasync");
    usleep(atol(getenv("SYNC_MICROSECONDS")));
    note("sync\n");
    return real(fd);
}

int epoll_wait(int set, struct epoll_event *events, int most, int limit) {
    int (*real)(int, struct epoll_event *, int, int) = (int (*)(int, struct epoll_event *, int, int))dlsym(RTLD_NEXT, "epoll_wait");
    char line[32];
    snprintf(line, sizeof line, "%d\n", limit);
    note(line);
    return real(set, events, most, limit);
}
