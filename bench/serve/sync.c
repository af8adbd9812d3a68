/* Preloaded into a server: each fdatasync sleeps 0.2 ms, as a good disk would take, or SYNC_US microseconds, and
   succeeds; with SYNC_BYTES_A_US it sleeps longer, a microsecond for so many bytes that were written since the last
   one. The calls are counted in the first 8 bytes of the file that SYNC_COUNT names, so that another process can
   read the count at any moment. If clock.c is preloaded too,
   it notes when each call begins and ends. */
#include "clock.h"
#include <fcntl.h>
#include <stdatomic.h>
#include <stdlib.h>
#include <sys/mman.h>
#include <sys/syscall.h>
#include <time.h>
#include <unistd.h>

static atomic_ulong *calls;
static atomic_ulong written;
static unsigned long least_us = 200, bytes_a_us;

static void tell(enum kind kind) {
    if (note) note(kind);
}

__attribute__((constructor)) static void open_count(void) {
    const char *name = getenv("SYNC_COUNT"), *least = getenv("SYNC_US"), *rate = getenv("SYNC_BYTES_A_US");
    int file = name ? open(name, O_RDWR | O_CREAT, 0600) : -1;
    if (file < 0 || ftruncate(file, sizeof *calls)) exit(3);
    calls = mmap(NULL, sizeof *calls, PROT_READ | PROT_WRITE, MAP_SHARED, file, 0);
    if (calls == MAP_FAILED) exit(3);
    close(file);
    if (least) least_us = strtoul(least, NULL, 10);
    if (rate) bytes_a_us = strtoul(rate, NULL, 10);
}

ssize_t pwrite(int file, const void *bytes, size_t length, off_t at) {
    tell(length == 1 ? GATES : WRITES);
    ssize_t made = syscall(SYS_pwrite64, file, bytes, length, at);
    if (made > 0) atomic_fetch_add(&written, made);
    return made;
}

int fdatasync(int file) {
    (void)file;
    tell(SYNCS);
    unsigned long bytes = atomic_exchange(&written, 0);
    unsigned long us = least_us + (bytes_a_us ? bytes / bytes_a_us : 0);
    struct timespec rest = {us / 1000000, us % 1000000 * 1000};
    while (clock_nanosleep(CLOCK_MONOTONIC, 0, &rest, &rest)) {
    }
    atomic_fetch_add(calls, 1);
    tell(SYNCED);
    return 0;
}
