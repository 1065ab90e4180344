// For LD_PRELOAD: notes in the file CALLS each call on FOLDER and its files, in order, a line for each: what it does, and the
// file's name (`.` is the folder); `answer` where bytes go to standard output or to a socket. Reads of other files are not noted.
// Where the beginning of a turn is written ahead of it, that is a `mark` and no `write`.
// The call of the number FAILS, from 1 and without marks, or the mark of the number FAILS_MARK fails as on a broken disk, or, with
// INTERRUPTED, as by a signal. All behind it succeed.
#define _GNU_SOURCE
#include <dlfcn.h>
#include <errno.h>
#include <fcntl.h>
#include <stdarg.h>
#include <stdio.h>
#include <stdlib.h>
#include <string.h>
#include <sys/socket.h>
#include <sys/stat.h>
#include <sys/syscall.h>
#include <sys/uio.h>
#include <unistd.h>

// the bytes of the beginning of a turn
#define MARK 17

static long calls, marks;

static const char *text(const char *name) {
    const char *found = getenv(name);
    return found ? found : "";
}

static void *real(const char *name) { return dlsym(RTLD_NEXT, name); }

static void note(const char *what, const char *name, const char *more) {
    char line[4300];
    int length = snprintf(line, sizeof line, "%s %s%s%s\n", what, name, *more ? " " : "", more);
    int file = (int)syscall(SYS_openat, AT_FDCWD, text("CALLS"), O_WRONLY | O_APPEND | O_CREAT | O_CLOEXEC, 0600);
    if (syscall(SYS_write, file, line, length) != length) abort();
    syscall(SYS_close, file);
}

// the name in the folder, or NULL for any other path
static const char *name_in(const char *path) {
    const char *folder = text("FOLDER");
    size_t length = strlen(folder);
    if (!length || strncmp(path, folder, length) != 0) return NULL;
    if (!path[length]) return ".";
    return path[length] == '/' ? path + length + 1 : NULL;
}

// notes a call, and returns whether it fails
static int fails(const char *what, const char *name, const char *more) {
    if (!name) return 0;
    note(what, name, more);
    int is_mark = strcmp(what, "mark") == 0;
    if (is_mark ? ++marks != atol(text("FAILS_MARK")) : ++calls != atol(text("FAILS"))) return 0;
    errno = *text("INTERRUPTED") ? EINTR : EIO;
    return 1;
}

static int fails_at(const char *what, int fd, const char *more) {
    static char path[4096];
    char link[64];
    snprintf(link, sizeof link, "/proc/self/fd/%d", fd);
    ssize_t size = readlink(link, path, sizeof path - 1);
    if (size < 0) return 0;
    path[size] = 0;
    return fails(what, name_in(path), more);
}

static void note_answer(int fd) {
    struct stat found;
    if (fstat(fd, &found) == 0 && (fd == 1 || S_ISSOCK(found.st_mode))) note("answer", "", "");
}

int statx(int folder, const char *path, int flags, unsigned mask, struct statx *found) {
    if (*path ? fails("look", name_in(path), "") : fails_at("look", folder, "")) return -1;
    return ((int (*)(int, const char *, int, unsigned, struct statx *))real("statx"))(folder, path, flags, mask, found);
}

#define OPENS(NAME, BEFORE, ARGUMENTS)                                     \
    {                                                                      \
        va_list more;                                                      \
        va_start(more, flags);                                             \
        mode_t mode = va_arg(more, mode_t);                                \
        va_end(more);                                                      \
        if (fails("open", name_in(path), "")) return -1;                   \
        return ((int (*)(BEFORE const char *, int, ...))real(NAME))ARGUMENTS; \
    }
#define AT int,
int open(const char *path, int flags, ...) OPENS("open", , (path, flags, mode))
int open64(const char *path, int flags, ...) OPENS("open64", , (path, flags, mode))
int openat(int folder, const char *path, int flags, ...) OPENS("openat", AT, (folder, path, flags, mode))
int openat64(int folder, const char *path, int flags, ...) OPENS("openat64", AT, (folder, path, flags, mode))

int flock(int fd, int how) {
    if (fails_at("lock", fd, "")) return -1;
    return ((int (*)(int, int))real("flock"))(fd, how);
}

ssize_t pread(int fd, void *bytes, size_t count, off_t place) {
    if (fails_at("read", fd, "")) return -1;
    return ((ssize_t(*)(int, void *, size_t, off_t))real("pread"))(fd, bytes, count, place);
}

ssize_t pread64(int fd, void *bytes, size_t count, off64_t place) {
    if (fails_at("read", fd, "")) return -1;
    return ((ssize_t(*)(int, void *, size_t, off64_t))real("pread64"))(fd, bytes, count, place);
}

ssize_t write(int fd, const void *bytes, size_t count) {
    if (fails_at(count == MARK && *(const char *)bytes == 1 ? "mark" : "write", fd, "")) return -1;
    note_answer(fd);
    return ((ssize_t(*)(int, const void *, size_t))real("write"))(fd, bytes, count);
}

ssize_t writev(int fd, const struct iovec *parts, int count) {
    if (fails_at("write", fd, "")) return -1;
    note_answer(fd);
    return ((ssize_t(*)(int, const struct iovec *, int))real("writev"))(fd, parts, count);
}

ssize_t send(int fd, const void *bytes, size_t count, int flags) {
    note_answer(fd);
    return ((ssize_t(*)(int, const void *, size_t, int))real("send"))(fd, bytes, count, flags);
}

ssize_t sendto(int fd, const void *bytes, size_t count, int flags, const struct sockaddr *to, socklen_t size) {
    note_answer(fd);
    return ((ssize_t(*)(int, const void *, size_t, int, const struct sockaddr *, socklen_t))real("sendto"))(fd, bytes, count, flags, to, size);
}

ssize_t sendmsg(int fd, const struct msghdr *message, int flags) {
    note_answer(fd);
    return ((ssize_t(*)(int, const struct msghdr *, int))real("sendmsg"))(fd, message, flags);
}

int fdatasync(int fd) {
    if (fails_at("sync", fd, "")) return -1;
    return ((int (*)(int))real("fdatasync"))(fd);
}

int fsync(int fd) {
    if (fails_at("sync", fd, "")) return -1;
    return ((int (*)(int))real("fsync"))(fd);
}

int ftruncate(int fd, off_t length) {
    if (fails_at("cut", fd, "")) return -1;
    return ((int (*)(int, off_t))real("ftruncate"))(fd, length);
}

int ftruncate64(int fd, off64_t length) {
    if (fails_at("cut", fd, "")) return -1;
    return ((int (*)(int, off64_t))real("ftruncate64"))(fd, length);
}

int rename(const char *from, const char *to) {
    const char *name = name_in(to);
    if (fails("rename", name_in(from), name ? name : to)) return -1;
    return ((int (*)(const char *, const char *))real("rename"))(from, to);
}

int renameat(int old, const char *from, int new, const char *to) {
    const char *name = name_in(to);
    if (fails("rename", name_in(from), name ? name : to)) return -1;
    return ((int (*)(int, const char *, int, const char *))real("renameat"))(old, from, new, to);
}

int unlink(const char *path) {
    if (fails("remove", name_in(path), "")) return -1;
    return ((int (*)(const char *))real("unlink"))(path);
}

int unlinkat(int folder, const char *path, int flags) {
    if (fails("remove", name_in(path), "")) return -1;
    return ((int (*)(int, const char *, int))real("unlinkat"))(folder, path, flags);
}
