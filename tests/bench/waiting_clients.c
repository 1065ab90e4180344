// Clients that wait for each reply: one connection for each file of frames. Each sends its next frame when the reply to the one
// before is there. All frames have one size, and all replies. Prints the seconds that it took.
//
// Usage: waiting_clients PORT FRAME_SIZE REPLY_SIZE FILE..
#include <arpa/inet.h>
#include <netinet/tcp.h>
#include <poll.h>
#include <stdio.h>
#include <stdlib.h>
#include <time.h>
#include <unistd.h>

struct client {
    char *frames;
    long left;
    long received;
};

static void check(int holds, const char *what) {
    if (!holds) {
        perror(what);
        exit(1);
    }
}

static void read_frames(struct client *client, const char *path, long size) {
    FILE *file = fopen(path, "rb");
    check(file != NULL, path);
    fseek(file, 0, SEEK_END);
    long length = ftell(file);
    rewind(file);
    client->frames = malloc(length);
    check(client->frames != NULL && fread(client->frames, 1, length, file) == (size_t)length, path);
    fclose(file);
    client->left = length / size;
    client->received = 0;
}

static int connected(int port) {
    struct sockaddr_in at = {.sin_family = AF_INET, .sin_port = htons(port), .sin_addr.s_addr = htonl(INADDR_LOOPBACK)};
    int one = 1, made = socket(AF_INET, SOCK_STREAM, 0);
    check(made >= 0 && connect(made, (struct sockaddr *)&at, sizeof at) == 0, "connect");
    setsockopt(made, IPPROTO_TCP, TCP_NODELAY, &one, sizeof one);
    return made;
}

static void send_next(struct client *client, int to, long size) {
    check(write(to, client->frames, size) == size, "write");
    client->frames += size;
    client->left--;
}

static double now(void) {
    struct timespec at;
    clock_gettime(CLOCK_MONOTONIC, &at);
    return at.tv_sec + at.tv_nsec / 1e9;
}

int main(int count, char **words) {
    check(count > 4, "usage");
    long size = atol(words[2]), reply = atol(words[3]);
    int clients = count - 4, waiting = clients;
    struct client *all = calloc(clients, sizeof *all);
    struct pollfd *polled = calloc(clients, sizeof *polled);
    check(all != NULL && polled != NULL, "calloc");
    for (int place = 0; place < clients; place++) {
        read_frames(&all[place], words[place + 4], size);
        polled[place] = (struct pollfd){.fd = connected(atoi(words[1])), .events = POLLIN};
    }
    double begun = now();
    for (int place = 0; place < clients; place++)
        send_next(&all[place], polled[place].fd, size);
    while (waiting > 0) {
        check(poll(polled, clients, -1) > 0, "poll");
        for (int place = 0; place < clients; place++) {
            if (polled[place].revents == 0)
                continue;
            char bytes[4096];
            long got = read(polled[place].fd, bytes, reply - all[place].received);
            check(got > 0, "read");
            all[place].received += got;
            if (all[place].received < reply)
                continue;
            all[place].received = 0;
            if (all[place].left > 0)
                send_next(&all[place], polled[place].fd, size);
            else {
                close(polled[place].fd);
                polled[place].fd = -1;
                waiting--;
            }
        }
    }
    printf("%f\n", now() - begun);
    return 0;
}
