/* Preloaded into a program, this counts its allocations and refuses some of them, by these environment variables:
 *   REFUSE        refuses the allocation of this number, counted from 1
 *   LIMIT         refuses each allocation of more bytes than this
 *   ALLOCATIONS   a file: at the end it gets the number of allocations
 *   COUNTS        a file: it gets three numbers, taken when standard input ended and before the program frees its memory:
 *                 the number of allocations, their bytes, and the bytes that are allocated and not freed
 * A reallocation counts as one more allocation, of its new size. */
#define _GNU_SOURCE
#include <dlfcn.h>
#include <stddef.h>
#include <stdint.h>
#include <stdio.h>
#include <stdlib.h>
#include <unistd.h>

/* The header of each block that is allocated here. A block of another call, such as calloc, has the C library's own
 * numbers there, which are no MARK. */
struct head {
    size_t size;
    size_t mark;
};
#define MARK 0x64726f69645f6d65u

struct counts {
    long asked;
    size_t bytes, held;
};

static struct counts now, at_end;
static int has_ended;
static long refused;
static size_t limit = SIZE_MAX;

__attribute__((constructor)) static void read_variables(void) {
    const char *number = getenv("REFUSE"), *size = getenv("LIMIT");
    if (number) refused = atol(number);
    if (size) limit = strtoull(size, NULL, 10);
}

static int is_refused(size_t size) {
    ++now.asked;
    now.bytes += size;
    return now.asked == refused || size > limit;
}

static struct head *head_of(void *block) {
    struct head *head = (struct head *)block - 1;
    return head->mark == MARK ? head : NULL;
}

static void *given(struct head *head, size_t size) {
    head->size = size;
    head->mark = MARK;
    now.held += size;
    return head + 1;
}

void *malloc(size_t size) {
    static void *(*next)(size_t);
    struct head *head;
    if (!next) next = (void *(*)(size_t))dlsym(RTLD_NEXT, "malloc");
    if (is_refused(size)) return NULL;
    head = next(sizeof *head + size);
    return head ? given(head, size) : NULL;
}

void *realloc(void *block, size_t size) {
    static void *(*next)(void *, size_t);
    struct head *head;
    size_t before;
    if (!next) next = (void *(*)(void *, size_t))dlsym(RTLD_NEXT, "realloc");
    if (!block) return malloc(size);
    head = head_of(block);
    if (!head) return next(block, size);
    if (is_refused(size)) return NULL;
    before = head->size;
    head = next(head, sizeof *head + size);
    if (!head) return NULL;
    now.held -= before;
    return given(head, size);
}

void free(void *block) {
    static void (*next)(void *);
    struct head *head;
    if (!next) next = (void (*)(void *))dlsym(RTLD_NEXT, "free");
    if (!block) return;
    head = head_of(block);
    if (head) {
        now.held -= head->size;
        head->mark = 0;
    }
    next(head ? (void *)head : block);
}

ssize_t read(int file, void *bytes, size_t size) {
    static ssize_t (*next)(int, void *, size_t);
    ssize_t count;
    if (!next) next = (ssize_t (*)(int, void *, size_t))dlsym(RTLD_NEXT, "read");
    count = next(file, bytes, size);
    if (file == 0 && count == 0 && size > 0 && !has_ended) {
        has_ended = 1;
        at_end = now;
    }
    return count;
}

static FILE *file_in(const char *variable) {
    const char *name = getenv(variable);
    return name ? fopen(name, "w") : NULL;
}

__attribute__((destructor)) static void report(void) {
    long asked = now.asked;
    FILE *file;
    if (!has_ended) at_end = now;
    file = file_in("ALLOCATIONS");
    if (file) {
        fprintf(file, "%ld\n", asked);
        fclose(file);
    }
    file = file_in("COUNTS");
    if (file) {
        fprintf(file, "%ld %zu %zu\n", at_end.asked, at_end.bytes, at_end.held);
        fclose(file);
    }
}
