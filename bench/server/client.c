/* Round trips to a server of lines: so many clients, each in a thread with a connection, send a setup, a line at a time, and then the same request
   again and again for so many seconds, each after the reply to the one before. Prints how many trips a second all made together, and of the time of
   one the half and the 99th percentile in microseconds.
   client PORT CLIENTS SECONDS SETUP REQUEST; the lines of SETUP are divided by newlines, and REQUEST lacks its own. */
#include <arpa/inet.h>
#include <netinet/in.h>
#include <netinet/tcp.h>
#include <pthread.h>
#include <stdio.h>
#include <stdlib.h>
#include <string.h>
#include <sys/socket.h>
#include <time.h>
#include <unistd.h>

enum { MOST = 4000000, LINE = 65536 };

static int port;
static double seconds;
static const char *setup, *request;
static float *times;
static long trips;

static double now(void) {
    struct timespec t;
    clock_gettime(CLOCK_MONOTONIC, &t);
    return t.tv_sec + t.tv_nsec / 1e9;
}

static void fail(const char *what) {
    perror(what);
    exit(1);
}

/* Sends a line, and reads one. */
static void trip(int at, const char *line, size_t length) {
    char reply[LINE];
    if (write(at, line, length) != (ssize_t)length)
        fail("write");
    for (;;) {
        ssize_t count = read(at, reply, sizeof reply);
        if (count <= 0)
            fail("read");
        if (reply[count - 1] == '\n')
            return;
    }
}

static int connected(void) {
    int at = socket(AF_INET, SOCK_STREAM, 0), yes = 1;
    struct sockaddr_in to = {.sin_family = AF_INET, .sin_port = htons(port), .sin_addr.s_addr = htonl(INADDR_LOOPBACK)};
    if (at < 0 || connect(at, (struct sockaddr *)&to, sizeof to) < 0)
        fail("connect");
    setsockopt(at, IPPROTO_TCP, TCP_NODELAY, &yes, sizeof yes);
    return at;
}

static void *client(void *unused) {
    char line[LINE];
    int at = connected();
    for (const char *rest = setup; *rest;) {
        size_t length = strcspn(rest, "\n");
        memcpy(line, rest, length);
        line[length] = '\n';
        trip(at, line, length + 1);
        rest += length + (rest[length] == '\n');
    }
    size_t length = strlen(request);
    memcpy(line, request, length);
    line[length] = '\n';
    double begin = now(), before = begin;
    while (before < begin + seconds) {
        trip(at, line, length + 1);
        double after = now();
        long number = __atomic_fetch_add(&trips, 1, __ATOMIC_SEQ_CST);
        if (number < MOST)
            times[number] = (after - before) * 1e6;
        before = after;
    }
    close(at);
    return unused;
}

static int order(const void *a, const void *b) {
    float x = *(const float *)a, y = *(const float *)b;
    return (x > y) - (x < y);
}

int main(int count, char **words) {
    if (count != 6) {
        fprintf(stderr, "client PORT CLIENTS SECONDS SETUP REQUEST\n");
        return 2;
    }
    port = atoi(words[1]);
    int clients = atoi(words[2]);
    seconds = atof(words[3]);
    setup = words[4];
    request = words[5];
    times = calloc(MOST, sizeof *times);
    pthread_t *threads = calloc(clients, sizeof *threads);
    if (!times || !threads)
        fail("memory");
    for (int i = 0; i < clients; i++)
        if (pthread_create(&threads[i], NULL, client, NULL))
            fail("thread");
    for (int i = 0; i < clients; i++)
        pthread_join(threads[i], NULL);
    long taken = trips < MOST ? trips : MOST;
    qsort(times, taken, sizeof *times, order);
    printf("%.0f %.1f %.1f\n", trips / seconds, times[taken / 2], times[taken * 99 / 100]);
    return 0;
}
