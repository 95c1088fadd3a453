// Asks an agent at a Unix socket for listings: listings SOCKET CONNECTIONS SECONDS. Each connection is a thread, which
// asks again once it has its answer. Prints how many listings a second came back.
#include <pthread.h>
#include <stdatomic.h>
#include <stdint.h>
#include <stdio.h>
#include <stdlib.h>
#include <string.h>
#include <sys/socket.h>
#include <sys/un.h>
#include <time.h>
#include <unistd.h>

static struct sockaddr_un address = {.sun_family = AF_UNIX};
static double end;
static atomic_long answered;

static double now(void) {
    struct timespec t;
    clock_gettime(CLOCK_MONOTONIC, &t);
    return t.tv_sec + t.tv_nsec / 1e9;
}

static void take(int stream, unsigned char *to, size_t count) {
    while (count) {
        ssize_t got = read(stream, to, count);
        if (got <= 0) exit((perror("read"), 1));
        to += got;
        count -= got;
    }
}

static void *ask(void *unused) {
    static const unsigned char listing[] = {0, 0, 0, 1, 11};
    int stream = socket(AF_UNIX, SOCK_STREAM, 0);
    unsigned char *answer = malloc(262149);
    if (stream < 0 || !answer || connect(stream, (struct sockaddr *)&address, sizeof address)) exit((perror("connect"), 1));
    for (long count = 1; now() < end; count++) {
        if (write(stream, listing, sizeof listing) != sizeof listing) exit((perror("write"), 1));
        take(stream, answer, 4);
        uint32_t length = (uint32_t)answer[0] << 24 | answer[1] << 16 | answer[2] << 8 | answer[3];
        if (length < 1 || length > 262144) exit((fputs("no answer of an agent\n", stderr), 1));
        take(stream, answer, length);
        if (answer[0] != 12) exit((fputs("no listing\n", stderr), 1));
        atomic_fetch_add(&answered, 1);
    }
    sleep(1);
    close(stream);
    return unused;
}

int main(int count, char **words) {
    if (count != 4 || strlen(words[1]) >= sizeof address.sun_path) return 2;
    strcpy(address.sun_path, words[1]);
    int connections = atoi(words[2]);
    double seconds = atof(words[3]);
    end = now() + seconds;
    pthread_t *threads = calloc(connections, sizeof *threads);
    for (int i = 0; i < connections; i++)
        if (pthread_create(&threads[i], 0, ask, 0)) return 1;
    for (int i = 0; i < connections; i++) pthread_join(threads[i], 0);
    printf("%.0f\n", answered / seconds);
}
