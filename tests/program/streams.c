/* Preloaded into a program, this interrupts its calls on four streams, cuts them short or lets them fail:
 *   READ      its reads of standard input      RECEIVE   what its sockets receive
 *   WRITE     its writes to standard output    SEND      what they send
 * by environment variables, which begin with these words:
 *   READ_INTERRUPTIONS     interrupts this many calls first
 *   READ_INTERRUPTED_AT    BYTES:CALLS,BYTES:CALLS.. with rising BYTES: after BYTES bytes interrupts CALLS calls
 *   READ_ROOM              after this many bytes each call fails
 *   READ_FAILS_ONCE        after this many bytes one call fails, and the next succeeds
 *   READ_ENDS              after this many bytes a call takes none
 *   READ_WIDTH             a call takes at most this many bytes; a write of width 0 takes none
 *   READ_CHANCE            a call takes some of its bytes by chance, from this seed
 * The system reports once that bytes came. After a receive that was cut short here, the next wait reports the rest, as if it had
 * come since.
 * CLOCK_TIMES has its clock go so many times as fast, WAITS_TIMES its waits for many connections. Behind WAITS waits the next
 * one fails. */
#define _GNU_SOURCE
#include <dlfcn.h>
#include <errno.h>
#include <stdio.h>
#include <stdlib.h>
#include <sys/epoll.h>
#include <sys/socket.h>
#include <time.h>
#include <unistd.h>

struct stream {
    const char *name;
    int error;          /* the error of a failed call */
    long calls, done, failures;
    unsigned chance;
    const char *places; /* the unread rest of INTERRUPTED_AT, or NULL before it is read */
    long place, left;   /* the next place, or -1, and the number of its interruptions */
};

static struct stream input = {.name = "READ", .error = EIO}, output = {.name = "WRITE", .error = EPIPE};
static struct stream received = {.name = "RECEIVE", .error = EIO}, sent = {.name = "SEND", .error = EPIPE};

static const char *text(const struct stream *stream, const char *what) {
    char name[64];
    snprintf(name, sizeof name, "%s_%s", stream->name, what);
    return getenv(name);
}

static long number(const struct stream *stream, const char *what, long otherwise) {
    const char *found = text(stream, what);
    return found ? atol(found) : otherwise;
}

/* the sockets on which the program waits, by their file: what the system reports of it, and whether a receive was cut short */
enum { SOCKETS = 1024 };
static struct {
    epoll_data_t data;
    int cut;
} sockets[SOCKETS];

static ssize_t failed(int error) {
    errno = error;
    return -1;
}

static void next_place(struct stream *stream) {
    char *end;
    stream->place = -1;
    if (!*stream->places) return;
    stream->place = strtol(stream->places, &end, 10);
    stream->left = strtol(end + 1, &end, 10);
    stream->places = *end ? end + 1 : end;
}

static int is_interrupted(struct stream *stream) {
    if (!stream->places) {
        const char *places = text(stream, "INTERRUPTED_AT");
        stream->places = places ? places : "";
        next_place(stream);
    }
    if (stream->calls++ < number(stream, "INTERRUPTIONS", 0)) return 1;
    if (stream->done != stream->place) return 0;
    if (stream->left-- > 0) return 1;
    next_place(stream);
    return 0;
}

static ssize_t least(ssize_t a, long b) {
    return b >= 0 && b < a ? b : a;
}

/* limits the bytes of a call so that it ends at this place, if it lies ahead */
static ssize_t up_to(const struct stream *stream, long place, ssize_t size) {
    return stream->done < place ? least(size, place - stream->done) : size;
}

/* returns the most bytes that the next call takes, or -1 if it fails */
static ssize_t allowed(struct stream *stream, size_t size) {
    long room = number(stream, "ROOM", -1), fails_once = number(stream, "FAILS_ONCE", -1);
    ssize_t most = size;
    if (is_interrupted(stream)) return failed(EINTR);
    if (stream->done == fails_once && stream->failures++ == 0) return failed(stream->error);
    if (stream->done == room) return failed(stream->error);
    if (stream->done == number(stream, "ENDS", -1)) return 0;
    most = least(most, number(stream, "WIDTH", -1));
    if (number(stream, "CHANCE", 0) && most > 1) {
        if (!stream->chance) stream->chance = number(stream, "CHANCE", 0);
        most = 1 + rand_r(&stream->chance) % most;
    }
    most = up_to(stream, number(stream, "ENDS", -1), most);
    most = up_to(stream, room, most);
    most = up_to(stream, fails_once, most);
    return up_to(stream, stream->place, most);
}

static ssize_t counted(struct stream *stream, ssize_t count) {
    if (count > 0) stream->done += count;
    return count;
}

ssize_t read(int file, void *bytes, size_t size) {
    static ssize_t (*next)(int, void *, size_t);
    ssize_t most;
    if (!next) next = (ssize_t (*)(int, void *, size_t))dlsym(RTLD_NEXT, "read");
    if (file != 0) return next(file, bytes, size);
    most = allowed(&input, size);
    return most < 0 ? -1 : counted(&input, next(file, bytes, most));
}

ssize_t write(int file, const void *bytes, size_t size) {
    static ssize_t (*next)(int, const void *, size_t);
    ssize_t most;
    if (!next) next = (ssize_t (*)(int, const void *, size_t))dlsym(RTLD_NEXT, "write");
    if (file != 1) return next(file, bytes, size);
    most = allowed(&output, size);
    return most <= 0 ? most : counted(&output, next(file, bytes, most));
}

ssize_t recv(int file, void *bytes, size_t size, int flags) {
    static ssize_t (*next)(int, void *, size_t, int);
    ssize_t most, count;
    if (!next) next = (ssize_t (*)(int, void *, size_t, int))dlsym(RTLD_NEXT, "recv");
    most = allowed(&received, size);
    if (most < 0) return -1;
    count = counted(&received, next(file, bytes, most, flags));
    if ((unsigned)file < SOCKETS) sockets[file].cut = count == most && most < (ssize_t)size;
    return count;
}

ssize_t send(int file, const void *bytes, size_t size, int flags) {
    static ssize_t (*next)(int, const void *, size_t, int);
    ssize_t most;
    if (!next) next = (ssize_t (*)(int, const void *, size_t, int))dlsym(RTLD_NEXT, "send");
    most = allowed(&sent, size);
    return most <= 0 ? most : counted(&sent, next(file, bytes, most, flags));
}

int epoll_ctl(int set, int what, int file, struct epoll_event *event) {
    static int (*next)(int, int, int, struct epoll_event *);
    if (!next) next = (int (*)(int, int, int, struct epoll_event *))dlsym(RTLD_NEXT, "epoll_ctl");
    if (what == EPOLL_CTL_ADD && (unsigned)file < SOCKETS) {
        sockets[file].data = event->data;
        sockets[file].cut = 0;
    }
    return next(set, what, file, event);
}

/* whether the rest of a receive has to be reported */
static int is_cut(void) {
    for (int file = 0; file < SOCKETS; file++)
        if (sockets[file].cut) return 1;
    return 0;
}

/* adds the rests of receives to these events, and returns their number */
static int with_rests(struct epoll_event *events, int count, int most) {
    for (int file = 0; count >= 0 && count < most && file < SOCKETS; file++)
        if (sockets[file].cut) {
            events[count].events = EPOLLIN;
            events[count++].data = sockets[file].data;
            sockets[file].cut = 0;
        }
    return count;
}

int epoll_wait(int set, struct epoll_event *events, int most, int limit) {
    static int (*next)(int, struct epoll_event *, int, int);
    static long waits;
    const char *before = getenv("WAITS"), *times = getenv("WAITS_TIMES");
    if (!next) next = (int (*)(int, struct epoll_event *, int, int))dlsym(RTLD_NEXT, "epoll_wait");
    if (before && waits++ >= atol(before)) return failed(EINVAL);
    if (is_cut()) return with_rests(events, next(set, events, most, 0), most);
    return next(set, events, most, times ? limit / atoi(times) + 1 : limit);
}

int clock_gettime(clockid_t clock, struct timespec *now) {
    static int (*next)(clockid_t, struct timespec *);
    static struct timespec first;
    const char *times = getenv("CLOCK_TIMES");
    long long passed;
    int result;
    if (!next) next = (int (*)(clockid_t, struct timespec *))dlsym(RTLD_NEXT, "clock_gettime");
    result = next(clock, now);
    if (result || !times || clock != CLOCK_MONOTONIC) return result;
    if (!first.tv_sec) first = *now;
    passed = ((now->tv_sec - first.tv_sec) * 1000000000LL + now->tv_nsec - first.tv_nsec) * atol(times) + first.tv_nsec;
    now->tv_sec = first.tv_sec + passed / 1000000000LL;
    now->tv_nsec = passed % 1000000000LL;
    return 0;
}
