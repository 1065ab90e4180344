/* Preloaded into a program, this lets its changes of the working folder fail, by environment variables:
 *   CHDIR_FAILS      the call of this number fails as without permission, counted from 1
 *   CHDIR_FAILS_ON   and all behind it
 *   CHDIRS_FILE      this file gets a byte for each call
 *   EXCHANGED_CHDIR  before the call of this number, counted from 1,
 *   EXCHANGED_BY     this path is exchanged
 *   EXCHANGED_TO     for this one */
#define _GNU_SOURCE
#include <dlfcn.h>
#include <errno.h>
#include <fcntl.h>
#include <stdio.h>
#include <stdlib.h>
#include <sys/syscall.h>
#include <unistd.h>

static long calls;

static const char *text(const char *name) {
    const char *found = getenv(name);
    return found ? found : "";
}

static void count(const char *file) {
    int counted = (int)syscall(SYS_openat, AT_FDCWD, file, O_WRONLY | O_APPEND | O_CREAT, 0600);
    if (syscall(SYS_write, counted, ".", 1) != 1) abort();
    syscall(SYS_close, counted);
}

int chdir(const char *path) {
    long fails = atol(text("CHDIR_FAILS"));
    calls++;
    if (*text("CHDIRS_FILE")) count(text("CHDIRS_FILE"));
    if (calls == atol(text("EXCHANGED_CHDIR"))) {
        if (renameat2(AT_FDCWD, text("EXCHANGED_BY"), AT_FDCWD, text("EXCHANGED_TO"), RENAME_EXCHANGE) != 0) abort();
    }
    if (calls == fails || (fails && calls > fails && *text("CHDIR_FAILS_ON"))) {
        errno = EACCES;
        return -1;
    }
    return ((int (*)(const char *))dlsym(RTLD_NEXT, "chdir"))(path);
}
