/* Preloaded into a server beside sync.c: notes the moments of its calls in the file that SYNC_CLOCK names, if one is
   named. An event has 16 bytes: nanoseconds of the monotonic clock (8, little-endian), its kind and its thread (4
   each). The file begins with how many there were (8 bytes, and 8 of zeros); behind the last place none is noted.
   rounds.py reads it. */
#include "clock.h"
#include <fcntl.h>
#include <stdatomic.h>
#include <stdint.h>
#include <stdlib.h>
#include <sys/mman.h>
#include <sys/socket.h>
#include <sys/stat.h>
#include <sys/syscall.h>
#include <sys/uio.h>
#include <time.h>
#include <unistd.h>

enum { PLACES = 1 << 21, FILES = 4096 };

struct event {
    uint64_t at;
    uint32_t kind, thread;
};

struct events {
    atomic_ulong count;
    uint64_t zeros;
    struct event places[PLACES];
};

static struct events *events;
/* What each descriptor is: 0 not looked at yet, 1 a socket, 2 a file, 3 another. */
static atomic_uchar kinds[FILES];
static _Thread_local uint32_t own;

__attribute__((constructor)) static void open_clock(void) {
    const char *name = getenv("SYNC_CLOCK");
    if (!name) return;
    int file = open(name, O_RDWR | O_CREAT, 0600);
    if (file < 0 || ftruncate(file, sizeof *events)) exit(3);
    events = mmap(NULL, sizeof *events, PROT_READ | PROT_WRITE, MAP_SHARED, file, 0);
    if (events == MAP_FAILED) exit(3);
    close(file);
}

void note(enum kind kind) {
    if (!events) return;
    struct timespec now;
    clock_gettime(CLOCK_MONOTONIC, &now);
    unsigned long place = atomic_fetch_add(&events->count, 1);
    if (place >= PLACES) return;
    if (!own) own = syscall(SYS_gettid);
    events->places[place] = (struct event){now.tv_sec * 1000000000ull + now.tv_nsec, kind, own};
}

static int kind_of(int file) {
    struct stat is;
    if (!events || file < 0 || file >= FILES) return 3;
    int kind = kinds[file];
    if (!kind) {
        kind = syscall(SYS_fstat, file, &is) ? 3 : S_ISSOCK(is.st_mode) ? 1 : S_ISREG(is.st_mode) ? 2 : 3;
        kinds[file] = kind;
    }
    return kind;
}

/* Notes that so many bytes went out, or came in. */
static ssize_t out(int file, ssize_t bytes) {
    if (bytes > 0 && kind_of(file) == 1) note(REPLIED);
    return bytes;
}

static ssize_t in(int file, ssize_t bytes) {
    if (bytes > 0 && kind_of(file) == 1) note(READ);
    return bytes;
}

int close(int file) {
    if (file >= 0 && file < FILES) kinds[file] = 0;
    return syscall(SYS_close, file);
}

ssize_t write(int file, const void *bytes, size_t length) {
    if (kind_of(file) == 2) note(WRITES);
    return out(file, syscall(SYS_write, file, bytes, length));
}

ssize_t writev(int file, const struct iovec *parts, int count) {
    return out(file, syscall(SYS_writev, file, parts, count));
}

ssize_t send(int file, const void *bytes, size_t length, int flags) {
    return out(file, syscall(SYS_sendto, file, bytes, length, flags, NULL, 0));
}

ssize_t read(int file, void *bytes, size_t length) {
    return in(file, syscall(SYS_read, file, bytes, length));
}

ssize_t readv(int file, const struct iovec *parts, int count) {
    return in(file, syscall(SYS_readv, file, parts, count));
}

ssize_t recv(int file, void *bytes, size_t length, int flags) {
    return in(file, syscall(SYS_recvfrom, file, bytes, length, flags, NULL, NULL));
}
