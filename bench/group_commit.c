// The peer of a service whose changes share their syncs: group commit in the journal's own format, and its four calls alone.
//
//     group_commit PORT FILE         answers each line by one line, behind a record of 60 bytes that is on the disk. What came
//                                    while others were written goes behind the closed gate in one piece: pwrite, fdatasync,
//                                    then the gate's byte, fdatasync. A line that begins with H makes no record
//     group_commit 0 FILE SECONDS TIMES
//                                    makes those four calls for one record after another, without any connection, and writes the
//                                    seconds and how many; the file TIMES gets the microseconds of each, as serve_load writes them
#include <arpa/inet.h>
#include <fcntl.h>
#include <netinet/tcp.h>
#include <pthread.h>
#include <stdint.h>
#include <stdio.h>
#include <stdlib.h>
#include <string.h>
#include <sys/socket.h>
#include <time.h>
#include <unistd.h>

enum { FRAME = 60, MOST_WAITING = 1 << 24 };

static const char header[9] = "OTCJRNL1";  // with the closed gate behind it
static int file;
static off_t end = sizeof header;
static pthread_mutex_t lock = PTHREAD_MUTEX_INITIALIZER;
static pthread_cond_t written_out = PTHREAD_COND_INITIALIZER;
static char *gathering, *writing;
static size_t gathered;               // bytes
static long position, batches, done;  // records; batches that were begun and ended
static int is_writing;

static void stop(const char *what) {
    perror(what);
    exit(1);
}

// A record's length, as many bytes, and an open gate.
static void put_frame(char *at) {
    memset(at, 'x', FRAME);
    memcpy(at, &(uint32_t){FRAME - 5}, 4);
    at[FRAME - 1] = 1;
}

// Puts whole frames behind the closed gate, and opens it once they are on the disk.
static void append(char *frames, size_t length) {
    frames[length - 1] = 0;
    if (pwrite(file, frames, length, end) != (ssize_t)length || fdatasync(file) != 0) stop("records");
    if (pwrite(file, "\1", 1, end - 1) != 1 || fdatasync(file) != 0) stop("gate");
    end += length;
}

// Makes so many records, and comes back once they are on the disk; the first one's position.
static long commit(int count) {
    pthread_mutex_lock(&lock);
    if (gathered + (size_t)count * FRAME > MOST_WAITING) stop("too much waits");
    for (int at = 0; at < count; at++, gathered += FRAME) put_frame(gathering + gathered);
    long own = batches, first = position + 1;
    position += count;
    while (done <= own) {
        if (is_writing) {
            pthread_cond_wait(&written_out, &lock);
            continue;
        }
        char *frames = gathering;
        size_t length = gathered;
        gathering = writing, writing = frames, gathered = 0, is_writing = 1, batches++;
        pthread_mutex_unlock(&lock);
        append(frames, length);
        pthread_mutex_lock(&lock);
        done = batches, is_writing = 0;
        pthread_cond_broadcast(&written_out);
    }
    pthread_mutex_unlock(&lock);
    return first;
}

// Answers the whole lines of a piece; how many bytes they have.
static size_t answer(int connection, const char *bytes, size_t length) {
    static __thread char replies[1 << 22];
    size_t taken = 0, size = 0;
    int changes = 0, greetings = 0;
    for (size_t at = 0; at < length; at++) {
        if (bytes[at] != '\n') continue;
        if (bytes[taken] == 'H') greetings++;
        else changes++;
        taken = at + 1;
    }
    long first = changes > 0 ? commit(changes) : 0;
    for (int at = 0; at < greetings; at++) size += sprintf(replies + size, "ok 0 hello A\n");
    for (int at = 0; at < changes; at++) size += sprintf(replies + size, "ok %ld trade %ld\n", first + at, first + at);
    for (size_t sent = 0; sent < size;) {
        ssize_t more = send(connection, replies + sent, size - sent, MSG_NOSIGNAL);
        if (more <= 0) break;
        sent += more;
    }
    return taken;
}

static void *serve(void *given) {
    int connection = (int)(intptr_t)given, one = 1;
    char bytes[65536];
    size_t held = 0;
    ssize_t length;
    setsockopt(connection, IPPROTO_TCP, TCP_NODELAY, &one, sizeof one);
    while ((length = recv(connection, bytes + held, sizeof bytes - held, 0)) > 0) {
        held += length;
        size_t taken = answer(connection, bytes, held);
        memmove(bytes, bytes + taken, held -= taken);
    }
    close(connection);
    return NULL;
}

static double now(void) {
    struct timespec time;
    clock_gettime(CLOCK_MONOTONIC, &time);
    return time.tv_sec + time.tv_nsec * 1e-9;
}

static void time_alone(double seconds, const char *path) {
    double begin = now(), last = begin;
    size_t count = 0;
    FILE *times = fopen(path, "wb");
    if (times == NULL) stop(path);
    for (; last - begin < seconds; count++) {
        put_frame(gathering);
        append(gathering, FRAME);
        double next = now(), taken = (next - last) * 1e6;
        if (fwrite(&taken, sizeof taken, 1, times) != 1) stop(path);
        last = next;
    }
    if (fclose(times) != 0) stop(path);
    printf("%.6f %zu\n", last - begin, count);
}

int main(int count, char **words) {
    if (count != 3 && count != 5) {
        fputs("bad words\n", stderr);
        return 2;
    }
    if ((file = open(words[2], O_RDWR | O_CREAT | O_TRUNC, 0600)) < 0) stop("open");
    if (pwrite(file, header, sizeof header, 0) != sizeof header || fdatasync(file) != 0) stop("header");
    gathering = malloc(MOST_WAITING), writing = malloc(MOST_WAITING);
    if (count == 5) {
        time_alone(atof(words[3]), words[4]);
        return 0;
    }
    struct sockaddr_in address = {.sin_family = AF_INET, .sin_port = htons(atoi(words[1]))};
    address.sin_addr.s_addr = htonl(INADDR_LOOPBACK);
    int listener = socket(AF_INET, SOCK_STREAM, 0), one = 1;
    setsockopt(listener, SOL_SOCKET, SO_REUSEADDR, &one, sizeof one);
    if (listener < 0 || bind(listener, (struct sockaddr *)&address, sizeof address) != 0) stop("bind");
    if (listen(listener, 128) != 0) stop("listen");
    for (;;) {
        int connection = accept(listener, NULL, NULL);
        pthread_t thread;
        if (connection < 0) stop("accept");
        if (pthread_create(&thread, NULL, serve, (void *)(intptr_t)connection) != 0) stop("pthread_create");
        pthread_detach(thread);
    }
}
