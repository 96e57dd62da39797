// A clock for a daemon that is tried: it stands still but while the daemon sleeps, and then it jumps. At FAKE_END the daemon ends.
//
//     cc -shared -fPIC clock.c -o clock.so
//     LD_PRELOAD=./clock.so FAKE_START=SECOND FAKE_END=SECOND FAKE_LOG=FILE DAEMON
//
// Each process that the daemon begins, or hands to another, is a line of FAKE_LOG: the second at which it begins.
#define _GNU_SOURCE
#include <dlfcn.h>
#include <poll.h>
#include <stdio.h>
#include <stdlib.h>
#include <sys/select.h>
#include <sys/time.h>
#include <time.h>
#include <unistd.h>

static long long now, end;
static pid_t daemon_id;

__attribute__((constructor)) static void begin(void) {
    now = atoll(getenv("FAKE_START") ? getenv("FAKE_START") : "0");
    end = atoll(getenv("FAKE_END") ? getenv("FAKE_END") : "0");
    daemon_id = getpid();
}

static void pass(long long seconds) {
    now += seconds > 0 ? seconds : 0;
    if (now >= end) _exit(0);
}

time_t time(time_t *into) {
    if (into) *into = now;
    return now;
}

int gettimeofday(struct timeval *into, void *zone) {
    into->tv_sec = now;
    into->tv_usec = 0;
    return 0;
}

int clock_gettime(clockid_t clock, struct timespec *into) {
    into->tv_sec = now;
    into->tv_nsec = 0;
    return 0;
}

unsigned sleep(unsigned seconds) {
    pass(seconds);
    return 0;
}

int nanosleep(const struct timespec *wanted, struct timespec *left) {
    pass(wanted->tv_sec + (wanted->tv_nsec > 0));
    return 0;
}

int poll(struct pollfd *files, nfds_t count, int milliseconds) {
    int (*real)(struct pollfd *, nfds_t, int) = dlsym(RTLD_NEXT, "poll");
    int ready = real(files, count, milliseconds ? 20 : 0);
    if (ready == 0 && milliseconds > 0) pass((milliseconds + 999) / 1000);
    return ready;
}

int select(int count, fd_set *in, fd_set *out, fd_set *other, struct timeval *wanted) {
    int (*real)(int, fd_set *, fd_set *, fd_set *, struct timeval *) = dlsym(RTLD_NEXT, "select");
    struct timeval little = {0, 20000};
    int ready = real(count, in, out, other, wanted ? &little : NULL);
    if (ready == 0 && wanted) pass(wanted->tv_sec + (wanted->tv_usec > 0));
    return ready;
}

static void note(void) {
    FILE *log = getenv("FAKE_LOG") ? fopen(getenv("FAKE_LOG"), "a") : NULL;
    if (!log) return;
    fprintf(log, "%lld\n", now);
    fclose(log);
}

// bcron-sched hands its jobs to another process.
ssize_t write(int file, const void *bytes, size_t count) {
    ssize_t (*real)(int, const void *, size_t) = dlsym(RTLD_NEXT, "write");
    if (file == 1 && getpid() == daemon_id) note();
    return real(file, bytes, count);
}

static pid_t forked(void) {
    pid_t (*real)(void) = dlsym(RTLD_NEXT, "fork");
    int is_daemon = getpid() == daemon_id;
    pid_t child = real();
    if (is_daemon && child > 0) note();
    return child;
}

pid_t fork(void) { return forked(); }
pid_t vfork(void) { return forked(); }
