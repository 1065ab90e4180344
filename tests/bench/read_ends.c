// Reads at most 65,536 bytes of both ends of each file, as `identify` does.
//
// Usage: read_ends FILE..
#include <fcntl.h>
#include <sys/stat.h>
#include <unistd.h>

enum { MOST = 65536 };

static char first[MOST], last[MOST];

int main(int count, char **words) {
    long all = 0;
    for (int place = 1; place < count; place++) {
        int file = open(words[place], O_RDONLY | O_NOFOLLOW);
        struct stat found;
        if (file < 0) continue;
        if (fstat(file, &found) == 0) {
            long size = found.st_size;
            all += pread(file, first, size < MOST ? size : MOST, 0);
            if (size > MOST) all += pread(file, last, MOST, size - MOST);
        }
        close(file);
    }
    return all < 0;
}
