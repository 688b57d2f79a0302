// A bare echo server with a thread for each connection, as the peer of `serve`.
//
//     echo_server PORT            sends back what it reads
//     echo_server PORT FILE       makes the four calls of a journal's change in front of that: 30 bytes behind a gate's byte,
//                                 fdatasync, the gate's byte, fdatasync
//     echo_server 0 FILE COUNT    makes the four calls COUNT times without any connection, and writes the seconds
#include <arpa/inet.h>
#include <fcntl.h>
#include <netinet/tcp.h>
#include <pthread.h>
#include <stdint.h>
#include <stdio.h>
#include <stdlib.h>
#include <sys/socket.h>
#include <time.h>
#include <unistd.h>

static int file = -1;
static off_t end = 1;

static void stop(const char *what) {
    perror(what);
    exit(1);
}

static void change(void) {
    static const char record[30];
    if (pwrite(file, record, 30, end) != 30 || fdatasync(file) != 0) stop("record");
    if (pwrite(file, record, 1, end - 1) != 1 || fdatasync(file) != 0) stop("gate");
    end += 30;
}

static void *serve(void *given) {
    int connection = (int)(intptr_t)given, one = 1;
    char bytes[65536];
    ssize_t length;
    setsockopt(connection, IPPROTO_TCP, TCP_NODELAY, &one, sizeof one);
    while ((length = recv(connection, bytes, sizeof bytes, 0)) > 0) {
        if (file >= 0) change();
        if (send(connection, bytes, length, MSG_NOSIGNAL) != length) break;
    }
    close(connection);
    return NULL;
}

static void time_changes(int count) {
    struct timespec from, to;
    clock_gettime(CLOCK_MONOTONIC, &from);
    for (int at = 0; at < count; at++) change();
    clock_gettime(CLOCK_MONOTONIC, &to);
    printf("%.6f\n", to.tv_sec - from.tv_sec + (to.tv_nsec - from.tv_nsec) * 1e-9);
}

int main(int count, char **words) {
    if (count < 2 || count > 4) {
        fputs("bad words\n", stderr);
        return 2;
    }
    if (count > 2 && (file = open(words[2], O_RDWR | O_CREAT | O_TRUNC, 0600)) < 0) stop("open");
    if (count == 4) {
        time_changes(atoi(words[3]));
        return 0;
    }
    struct sockaddr_in address = {.sin_family = AF_INET, .sin_port = htons(atoi(words[1]))};
    address.sin_addr.s_addr = htonl(INADDR_LOOPBACK);
    int listener = socket(AF_INET, SOCK_STREAM, 0), one = 1;
    setsockopt(listener, SOL_SOCKET, SO_REUSEADDR, &one, sizeof one);
    if (listener < 0 || bind(listener, (struct sockaddr *)&address, sizeof address) != 0) stop("bind");
    if (listen(listener, 128) != 0) stop("listen");
    for (;;) {
        int connection = accept(listener, NULL, NULL);
        pthread_t thread;
        if (connection < 0) stop("accept");
        if (pthread_create(&thread, NULL, serve, (void *)(intptr_t)connection) != 0) stop("pthread_create");
        pthread_detach(thread);
    }
}
