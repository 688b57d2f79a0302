/* Refuses calls of the program that it is preloaded into, speeds up its sleep, and sets its clock.
 *
 *     REFUSE_ACCEPT=ERROR:COUNT    the first COUNT calls for a connection fail with this number
 *     REFUSE_THREAD=ERROR:COUNT    so do the first COUNT calls for a thread
 *     REFUSE_MEMORY=N              the request for memory with this number is refused, the first being 1
 *     REFUSE_MEMORY_WITH=FILE      each request for memory is refused while this file is there
 *     REFUSED=FILE                 this file is made when a request for memory, or a call to a file, is refused
 *     REFUSE_DISK=N                of the calls to the file that was locked last the one with this number fails
 *     SLOW_DISK=MILLISECONDS       each sync of that file takes as many more
 *     KILL_DISK=N                  the program is killed in place of the call with this number
 *     REFUSE_SYNC=ERROR:COUNT      the first COUNT calls of fsync fail with this number
 *     REFUSE_DROP=ERROR:COUNT      so do the first COUNT calls that drop the kernel's copies of a file
 *     CALLED=FILE                  each lock, look, sync, datasync, drop and read adds a line to this file: the call's name, the path of
 *                                  what it was made to, and after a folder's path the names in it, in order
 *     MOMENT=SECONDS               the clock tells these seconds since 1970
 *     SLEPT=FILE                   each sleep takes a hundredth of its time, and its milliseconds go to this file, one line each
 */
#define _GNU_SOURCE
#include <dirent.h>
#include <dlfcn.h>
#include <errno.h>
#include <fcntl.h>
#include <pthread.h>
#include <signal.h>
#include <stdatomic.h>
#include <stdio.h>
#include <stdlib.h>
#include <string.h>
#include <sys/file.h>
#include <sys/socket.h>
#include <sys/stat.h>
#include <time.h>
#include <unistd.h>

static atomic_long accepts, threads, requests, disk_calls, syncs, drops;
static atomic_int locked = -1;

extern void *__libc_malloc(size_t size);
extern void *__libc_calloc(size_t count, size_t size);
extern void *__libc_realloc(void *old, size_t size);
extern void *__libc_memalign(size_t alignment, size_t size);

/* Whether this call is the one with the number of this setting. Then a file is made, where one is named. */
static int has_number(const char *name, atomic_long *calls) {
    const char *setting = getenv(name);
    if (setting == NULL || atomic_fetch_add(calls, 1) + 1 != atol(setting))
        return 0;
    const char *mark = getenv("REFUSED");
    int file = mark == NULL ? -1 : open(mark, O_WRONLY | O_CREAT | O_CLOEXEC, 0600);
    if (file >= 0)
        close(file);
    return 1;
}

/* Whether the file of this setting is there. */
static int has_file(const char *name) {
    const char *file = getenv(name);
    if (file == NULL)
        return 0;
    int error = errno;
    int there = access(file, F_OK) == 0;
    errno = error;
    return there;
}

/* Whether this request for memory is refused. */
static int is_refused(void) {
    if (!has_number("REFUSE_MEMORY", &requests) && !has_file("REFUSE_MEMORY_WITH"))
        return 0;
    errno = ENOMEM;
    return 1;
}

void *malloc(size_t size) {
    return is_refused() ? NULL : __libc_malloc(size);
}

void *calloc(size_t count, size_t size) {
    return is_refused() ? NULL : __libc_calloc(count, size);
}

void *realloc(void *old, size_t size) {
    return is_refused() ? NULL : __libc_realloc(old, size);
}

void *aligned_alloc(size_t alignment, size_t size) {
    return is_refused() ? NULL : __libc_memalign(alignment, size);
}

int posix_memalign(void **found, size_t alignment, size_t size) {
    void *memory = is_refused() ? NULL : __libc_memalign(alignment, size);
    if (memory == NULL)
        return ENOMEM;
    *found = memory;
    return 0;
}

/* The error of this call, or 0 where it is not refused. */
static int refusal(const char *name, atomic_long *calls) {
    const char *setting = getenv(name);
    int error;
    long count;
    if (setting == NULL || sscanf(setting, "%d:%ld", &error, &count) != 2)
        return 0;
    return atomic_fetch_add(calls, 1) < count ? error : 0;
}

int accept4(int socket, struct sockaddr *address, socklen_t *length, int flags) {
    int error = refusal("REFUSE_ACCEPT", &accepts);
    if (error != 0) {
        errno = error;
        return -1;
    }
    int (*next)(int, struct sockaddr *, socklen_t *, int) =
        (int (*)(int, struct sockaddr *, socklen_t *, int))dlsym(RTLD_NEXT, "accept4");
    return next(socket, address, length, flags);
}

int pthread_create(pthread_t *thread, const pthread_attr_t *attributes, void *(*start)(void *), void *argument) {
    int error = refusal("REFUSE_THREAD", &threads);
    if (error != 0)
        return error;
    int (*next)(pthread_t *, const pthread_attr_t *, void *(*)(void *), void *) =
        (int (*)(pthread_t *, const pthread_attr_t *, void *(*)(void *), void *))dlsym(RTLD_NEXT, "pthread_create");
    return next(thread, attributes, start, argument);
}

int nanosleep(const struct timespec *asked, struct timespec *left) {
    int (*next)(const struct timespec *, struct timespec *) =
        (int (*)(const struct timespec *, struct timespec *))dlsym(RTLD_NEXT, "nanosleep");
    const char *name = getenv("SLEPT");
    if (name == NULL)
        return next(asked, left);
    long long nanoseconds = asked->tv_sec * 1000000000LL + asked->tv_nsec;
    char line[32];
    int size = snprintf(line, sizeof line, "%lld\n", nanoseconds / 1000000);
    int file = open(name, O_WRONLY | O_CREAT | O_APPEND | O_CLOEXEC, 0600);
    if (file >= 0) {
        if (write(file, line, size) != size)
            abort();
        close(file);
    }
    struct timespec hundredth = {nanoseconds / 100 / 1000000000LL, nanoseconds / 100 % 1000000000LL};
    return next(&hundredth, left);
}

/* Adds the names in a folder to a line, in order. */
static void add_names(const char *folder, char *line, size_t room) {
    struct dirent **names;
    int count = scandir(folder, &names, NULL, alphasort);
    for (int at = 0; at < count; at++) {
        size_t size = strlen(line);
        if (names[at]->d_name[0] != '.')
            snprintf(line + size, room - size, " %s", names[at]->d_name);
        free(names[at]);
    }
    if (count >= 0)
        free(names);
}

/* Notes that this call was made to a file. */
static void note(const char *call, int file) {
    const char *name = getenv("CALLED");
    char link[64], path[4096], line[16384];
    if (name == NULL)
        return;
    snprintf(link, sizeof link, "/proc/self/fd/%d", file);
    ssize_t size = readlink(link, path, sizeof path - 1);
    if (size < 0)
        return;
    path[size] = 0;
    snprintf(line, sizeof line, "%s %s", call, path);
    add_names(path, line, sizeof line - 1);
    strcat(line, "\n");
    int log = open(name, O_WRONLY | O_CREAT | O_APPEND | O_CLOEXEC, 0600);
    if (log < 0 || write(log, line, strlen(line)) < 0)
        abort();
    close(log);
}

int flock(int file, int operation) {
    int (*next)(int, int) = (int (*)(int, int))dlsym(RTLD_NEXT, "flock");
    int done = next(file, operation);
    if (done == 0 && operation != LOCK_UN) {
        locked = file;
        note("lock", file);
    }
    return done;
}

/* Whether this call to a file is the one that is refused. */
static int is_lost(int file) {
    if (file == locked && has_number("KILL_DISK", &disk_calls))
        kill(getpid(), SIGKILL);
    if (file != locked || !has_number("REFUSE_DISK", &disk_calls))
        return 0;
    errno = EIO;
    return 1;
}

int statx(int folder, const char *path, int flags, unsigned int mask, struct statx *found) {
    if (*path == 0)
        note("look", folder);
    if (*path == 0 && is_lost(folder))
        return -1;
    int (*next)(int, const char *, int, unsigned int, struct statx *) =
        (int (*)(int, const char *, int, unsigned int, struct statx *))dlsym(RTLD_NEXT, "statx");
    return next(folder, path, flags, mask, found);
}

ssize_t pread(int file, void *bytes, size_t count, off_t place) {
    note("read", file);
    if (is_lost(file))
        return -1;
    ssize_t (*next)(int, void *, size_t, off_t) = (ssize_t (*)(int, void *, size_t, off_t))dlsym(RTLD_NEXT, "pread");
    return next(file, bytes, count, place);
}

ssize_t pwrite(int file, const void *bytes, size_t count, off_t place) {
    if (is_lost(file))
        return -1;
    ssize_t (*next)(int, const void *, size_t, off_t) =
        (ssize_t (*)(int, const void *, size_t, off_t))dlsym(RTLD_NEXT, "pwrite");
    return next(file, bytes, count, place);
}

int fsync(int file) {
    note("sync", file);
    int error = refusal("REFUSE_SYNC", &syncs);
    if (error != 0) {
        errno = error;
        return -1;
    }
    if (is_lost(file))
        return -1;
    int (*next)(int) = (int (*)(int))dlsym(RTLD_NEXT, "fsync");
    return next(file);
}

int posix_fadvise(int file, off_t place, off_t length, int advice) {
    if (advice == POSIX_FADV_DONTNEED && place == 0 && length == 0)
        note("drop", file);
    int error = refusal("REFUSE_DROP", &drops);
    if (error != 0)
        return error;
    if (is_lost(file))
        return errno;
    int (*next)(int, off_t, off_t, int) = (int (*)(int, off_t, off_t, int))dlsym(RTLD_NEXT, "posix_fadvise");
    return next(file, place, length, advice);
}

/* As programs call it whose places have 64 bits. */
int posix_fadvise64(int file, off_t place, off_t length, int advice) {
    return posix_fadvise(file, place, length, advice);
}

int fdatasync(int file) {
    note("datasync", file);
    const char *slow = getenv("SLOW_DISK");
    if (file == locked && slow != NULL)
        usleep(1000 * (useconds_t)atol(slow));
    if (is_lost(file))
        return -1;
    int (*next)(int) = (int (*)(int))dlsym(RTLD_NEXT, "fdatasync");
    return next(file);
}

int clock_gettime(clockid_t clock, struct timespec *told) {
    const char *setting = getenv("MOMENT");
    if (setting == NULL || clock != CLOCK_REALTIME) {
        int (*next)(clockid_t, struct timespec *) = (int (*)(clockid_t, struct timespec *))dlsym(RTLD_NEXT, "clock_gettime");
        return next(clock, told);
    }
    told->tv_sec = atoll(setting);
    told->tv_nsec = 0;
    return 0;
}
