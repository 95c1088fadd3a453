// Asks an agent at a Unix socket: agents SOCKET CONNECTIONS SECONDS PID [FRAME], for listings or for what the file FRAME
// has, a request with its length. One thread asks again on each connection once it has its answer. Prints the answers a
// second, and the processor time of process PID for each of them in microseconds and its resident memory in kB before and
// after.
#include <stdint.h>
#include <stdio.h>
#include <stdlib.h>
#include <string.h>
#include <sys/epoll.h>
#include <sys/socket.h>
#include <sys/un.h>
#include <time.h>
#include <unistd.h>

static double now(void) {
    struct timespec t;
    clock_gettime(CLOCK_MONOTONIC, &t);
    return t.tv_sec + t.tv_nsec / 1e9;
}

// processor time of a process in seconds, by its scheduler's count in nanoseconds over all its threads
static double used(int pid) {
    char path[64];
    unsigned long user, system;
    snprintf(path, sizeof path, "/proc/%d/stat", pid);
    FILE *f = fopen(path, "r");
    if (!f || fscanf(f, "%*d (%*[^)]) %*c %*d %*d %*d %*d %*d %*u %*u %*u %*u %*u %lu %lu", &user, &system) != 2) exit((perror(path), 1));
    fclose(f);
    return (user + system) / (double)sysconf(_SC_CLK_TCK);
}

static long memory(int pid) {
    char path[64], line[256];
    long kb = 0;
    snprintf(path, sizeof path, "/proc/%d/status", pid);
    FILE *f = fopen(path, "r");
    while (f && fgets(line, sizeof line, f)) sscanf(line, "VmRSS: %ld", &kb);
    if (f) fclose(f);
    return kb;
}

struct stream { int at; uint32_t have, want; };

int main(int count, char **words) {
    static unsigned char piece[65536], request[65536] = {0, 0, 0, 1, 11};
    ssize_t length = 5;
    struct sockaddr_un address = {.sun_family = AF_UNIX};
    if (count == 6) {
        FILE *f = fopen(words[5], "r");
        if (!f || (length = fread(request, 1, sizeof request, f)) == 0 || fclose(f)) return perror(words[5]), 1;
        count--;
    }
    if (count != 5 || strlen(words[1]) >= sizeof address.sun_path) return 2;
    strcpy(address.sun_path, words[1]);
    int connections = atoi(words[2]), pid = atoi(words[4]), poll = epoll_create1(0);
    double seconds = atof(words[3]);
    struct stream *streams = calloc(connections, sizeof *streams);
    for (int i = 0; i < connections; i++) {
        streams[i].at = socket(AF_UNIX, SOCK_STREAM, 0);
        struct epoll_event event = {.events = EPOLLIN, .data.ptr = &streams[i]};
        if (connect(streams[i].at, (struct sockaddr *)&address, sizeof address)) return perror("connect"), 1;
        if (epoll_ctl(poll, EPOLL_CTL_ADD, streams[i].at, &event)) return perror("epoll"), 1;
    }
    long answered = 0, before = memory(pid);
    for (int i = 0; i < connections; i++)
        if (write(streams[i].at, request, length) != length) return perror("write"), 1;
    double start = now(), spent = used(pid);
    while (now() < start + seconds) {
        struct epoll_event events[256];
        int ready = epoll_wait(poll, events, 256, 100);
        for (int i = 0; i < ready; i++) {
            struct stream *s = events[i].data.ptr;
            ssize_t got = read(s->at, piece, sizeof piece);
            if (got <= 0) return perror("read"), 1;
            if (!s->want) s->want = ((uint32_t)piece[0] << 24 | piece[1] << 16 | piece[2] << 8 | piece[3]) + 4;
            s->have += got;
            if (s->have > s->want) return fputs("more than an answer\n", stderr), 1;
            if (s->have < s->want) continue;
            s->have = s->want = 0;
            answered++;
            if (write(s->at, request, length) != length) return perror("write"), 1;
        }
    }
    double took = now() - start;
    spent = used(pid) - spent;
    printf("%.0f a second, %.2f us of processor each, %ld kB before and %ld after\n", answered / took, answered ? spent * 1e6 / answered : 0, before, memory(pid));
    return 0;
}
