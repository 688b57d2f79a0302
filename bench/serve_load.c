// A load client for `serve`, and for any server that answers each line by one line.
//
//     serve_load PORT CONNECTIONS LINES AHEAD LINE [SECONDS TIMES]
//
// Each connection greets as A, all start together, and each sends LINE that many times, AHEAD of them in one write, and
// reads as many replies before it sends more; behind SECONDS, where they are given, it sends no more. It writes the seconds from
// the start to the last reply, how many lines were sent, and in microseconds the median, the 99th of a hundred and the most of the
// times from a write to its last reply; the file TIMES gets all of them, a double each. A reply to LINE that begins with `no` ends
// it with status 1.
#include <arpa/inet.h>
#include <netinet/tcp.h>
#include <pthread.h>
#include <stdio.h>
#include <stdlib.h>
#include <string.h>
#include <sys/socket.h>
#include <time.h>
#include <unistd.h>

static int port, lines, ahead;
static char *block;
static size_t line_length;
static double seconds = 1e9;
static pthread_barrier_t barrier;

typedef struct {
    double begin, *times;  // how long each write took
    size_t writes, lines;
} Client;

static void stop(const char *what) {
    perror(what);
    exit(1);
}

static int connected(void) {
    struct sockaddr_in address = {.sin_family = AF_INET, .sin_port = htons(port)};
    address.sin_addr.s_addr = htonl(INADDR_LOOPBACK);
    int connection = socket(AF_INET, SOCK_STREAM, 0), one = 1;
    if (connection < 0 || connect(connection, (struct sockaddr *)&address, sizeof address) != 0) stop("connect");
    setsockopt(connection, IPPROTO_TCP, TCP_NODELAY, &one, sizeof one);
    return connection;
}

// Reads until this many lines have come.
static void read_lines(int connection, int count) {
    char bytes[65536];
    char last = '\n';
    while (count > 0) {
        ssize_t length = recv(connection, bytes, sizeof bytes, 0);
        if (length <= 0) stop("recv");
        for (ssize_t at = 0; at < length; at++) {
            if (last == '\n' && bytes[at] == 'n') {
                fprintf(stderr, "refused: %.*s", (int)(length - at), bytes + at);
                exit(1);
            }
            count -= bytes[at] == '\n';
            last = bytes[at];
        }
    }
}

static void send_all(int connection, const char *bytes, size_t length) {
    while (length > 0) {
        ssize_t sent = send(connection, bytes, length, 0);
        if (sent <= 0) stop("send");
        bytes += sent;
        length -= sent;
    }
}

static double now(void) {
    struct timespec time;
    clock_gettime(CLOCK_MONOTONIC, &time);
    return time.tv_sec + time.tv_nsec * 1e-9;
}

static void *talk(void *given) {
    Client *own = given;
    int connection = connected();
    send_all(connection, "HELLO A KA\n", 11);
    read_lines(connection, 1);
    pthread_barrier_wait(&barrier);
    own->begin = now();
    for (int left = lines; left > 0; left -= ahead) {
        int count = left < ahead ? left : ahead;
        double begin = now();
        if (begin - own->begin >= seconds) break;
        send_all(connection, block, line_length * count);
        read_lines(connection, count);
        own->times[own->writes++] = (now() - begin) * 1e6;
        own->lines += count;
    }
    close(connection);
    return given;
}

static int by_size(const void *one, const void *other) {
    double a = *(const double *)one, b = *(const double *)other;
    return (a > b) - (a < b);
}

static void keep(const char *path, const double *times, size_t count) {
    FILE *file = fopen(path, "wb");
    if (file == NULL || fwrite(times, sizeof(double), count, file) != count || fclose(file) != 0) stop(path);
}

// Writes what the clients were told, whose last reply came at this time.
static void tell(Client *clients, int count, double end, const char *path) {
    double begin = end, *times = clients[0].times;
    size_t writes = 0, sent = 0;
    for (int at = 0; at < count; at++) {
        if (clients[at].begin < begin) begin = clients[at].begin;
        memmove(times + writes, clients[at].times, sizeof(double) * clients[at].writes);
        writes += clients[at].writes;
        sent += clients[at].lines;
    }
    qsort(times, writes, sizeof(double), by_size);
    printf("%.6f %zu %.1f %.1f %.1f\n", end - begin, sent, times[writes / 2], times[writes * 99 / 100], times[writes - 1]);
    if (path != NULL) keep(path, times, writes);
}

int main(int count, char **words) {
    if (count != 6 && count != 8) {
        fputs("bad words\n", stderr);
        return 2;
    }
    int connections = atoi(words[2]);
    port = atoi(words[1]);
    lines = atoi(words[3]);
    ahead = atoi(words[4]);
    line_length = strlen(words[5]) + 1;
    if (count == 8) seconds = atof(words[6]);
    block = malloc(line_length * ahead + 1);
    for (int at = 0; at < ahead; at++) sprintf(block + line_length * at, "%s\n", words[5]);
    size_t writes = (lines + ahead - 1) / ahead;
    double *times = malloc(sizeof(double) * writes * connections);
    Client clients[connections];
    pthread_t threads[connections];
    pthread_barrier_init(&barrier, NULL, connections + 1);
    for (int at = 0; at < connections; at++) {
        clients[at] = (Client){.times = times + writes * at};
        if (pthread_create(&threads[at], NULL, talk, &clients[at]) != 0) stop("pthread_create");
    }
    pthread_barrier_wait(&barrier);
    for (int at = 0; at < connections; at++) pthread_join(threads[at], NULL);
    tell(clients, connections, now(), words[count == 8 ? 7 : count]);
    return 0;
}
