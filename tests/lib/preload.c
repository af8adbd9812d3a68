/* Makes one call of a program fail, or ends the program at it. Loaded before the C library (LD_PRELOAD).
 *
 *     ALM_FAULT=CALL:N:KIND[:SEED]   at the N-th CALL, from 1
 *     ALM_MET=FILE                   is made as that call comes
 *     ALM_COUNTS=FILE                at the end of the program: how often each call was made, a line each
 *     ALM_MEMORY=FILE                while it runs: eight bytes, how many requests for memory were made so far
 *     ALM_CALLS=FILE                 the calls on files in their order, a line each: name and path, or name, place and length. Locks are there too:
 *                                    lock, lock-shared, unlock. Of a socket: nodelay, if it was set to send at once, and each send
 *     ALM_READS=lines                each read of standard input gives a line, where one is there
 *     ALM_INTERRUPT=N                the N-th read of standard input is interrupted: EINTR
 *     ALM_BODY=ignores               stands for a program that ignores failed writes and syncs: to it they succeed
 *     ALM_BODY=keeps                 stands for a program that never lets the kernel forget: posix_fadvise does nothing
 *     ALM_BODY=copies                stands for a program that takes a copy with each write, and lets it go: one request for memory more
 *     ALM_BODY=unsynced, unwritten   stand for one whose syncs, or writes, aren't made: to it they succeed
 *     ALM_BODY=misplaced, twice      stand for one that writes at half the place, or once more there
 *     ALM_BODY=misread               stands for one that reads from the first byte on
 *     ALM_BODY=stale                 stands for one that takes what the file ALM_STALE has for what it read
 *     ALM_BYTES=FILE                 the positional calls and syncs that were made, a line each: name, place and bytes in hexadecimal
 *
 * CALL is pwrite, pread, fdatasync, fsync, fadvise, ftruncate, openat, statx, unlink, rename, fchown, fchmod, realpath,
 * lock (flock), memory (each request for it), thread (each that is started), read (of standard input), or device: any of
 * pwrite, pread, fdatasync. KIND is
 *
 *     eio, enospc   the call does nothing and fails so (of memory or a thread: it is refused)
 *     disk          while the call runs the file ALM_DISK exists, which makes the disk below fail (badfs.c)
 *     from          this request for memory and all behind it are refused; this read and all behind it fail
 *     held          the call waits while the file ALM_MET exists, then goes on
 *     short         a write or read of half the bytes, where it has more than one
 *     kill          the process is killed before the call
 *     old new 00 a5 5a ff any alternating mixed sectors
 *                   the power fails in the call: what was written since the last sync, this call's bytes too, becomes what stood
 *                   there before, or what was written, or such or drawn bytes, or one of these by lot, for each byte or each sector
 *                   of 512. Then the process is killed. A rename is on the disk then
 *
 * A device is the file whose calls are positional; each file has its own list of pending writes.
 */
#define _GNU_SOURCE
#include <dlfcn.h>
#include <errno.h>
#include <fcntl.h>
#include <netinet/in.h>
#include <netinet/tcp.h>
#include <pthread.h>
#include <signal.h>
#include <stdarg.h>
#include <stdbool.h>
#include <stdint.h>
#include <stdio.h>
#include <stdlib.h>
#include <string.h>
#include <sys/file.h>
#include <sys/mman.h>
#include <sys/socket.h>
#include <sys/stat.h>
#include <sys/syscall.h>
#include <sys/types.h>
#include <unistd.h>

#include "preload.h"

static const char *const names[CALLS] = {
    "pwrite", "pread",  "fdatasync", "fsync",  "fadvise",  "ftruncate", "openat", "statx",  "unlink",
    "rename", "fchown", "fchmod",    "realpath", "lock", "memory",    "thread", "read",   "device",
};

struct pending {
    struct pending *next;
    int file;
    off_t at;
    size_t length;
    unsigned char bytes[]; /* as they were, then as they were written */
};

static unsigned long made[CALLS];
static enum call wanted = CALLS;
static unsigned long wanted_at;
static char kind[16];
static uint64_t seed;
static const char *counts, *met, *disk;
static int calls = -1, bytes_made = -1, stale = -1;
static bool ignores, keeps, copies, by_lines;
static const char *body = "";
static unsigned long interrupted; /* which read of standard input; 0: none */
static unsigned long *memory; /* a file that shows the count of requests */
static bool ready;
static struct pending *pending;
static int pending_lock;

/* Memory of its own, so that a refused request is never one of this library's. */
static _Alignas(16) unsigned char store[64 << 20];
static size_t store_used;

static void *take(size_t length) {
    size_t at = __atomic_fetch_add(&store_used, (length + 15) & ~(size_t)15, __ATOMIC_SEQ_CST);
    if (at + length > sizeof store) {
        static const char text[] = "preload: no room for pending writes\n";
        syscall(SYS_write, 2, text, sizeof text - 1);
        _exit(99);
    }
    return store + at;
}

/* The count of requests for memory, in a file that whoever started the program reads. */
static void show_memory(const char *path) {
    int file = syscall(SYS_openat, AT_FDCWD, path, O_RDWR | O_CREAT, 0644);
    if (file < 0 || syscall(SYS_ftruncate, file, sizeof *memory)) _exit(98);
    memory = mmap(NULL, sizeof *memory, PROT_READ | PROT_WRITE, MAP_SHARED, file, 0);
    if (memory == MAP_FAILED) _exit(98);
    syscall(SYS_close, file);
}

static bool is_body(const char *name) { return !strcmp(body, name); }

static void begin(void) {
    if (ready) return;
    ready = true;
    counts = getenv("ALM_COUNTS");
    met = getenv("ALM_MET");
    disk = getenv("ALM_DISK");
    if (getenv("ALM_BODY")) body = getenv("ALM_BODY");
    ignores = is_body("ignores");
    keeps = is_body("keeps");
    copies = is_body("copies");
    by_lines = getenv("ALM_READS") != NULL;
    const char *at = getenv("ALM_INTERRUPT");
    if (at) interrupted = strtoul(at, NULL, 10);
    const char *shown = getenv("ALM_MEMORY");
    if (shown) show_memory(shown);
    const char *listed = getenv("ALM_CALLS");
    if (listed) calls = syscall(SYS_openat, AT_FDCWD, listed, O_WRONLY | O_CREAT | O_APPEND, 0644);
    const char *written = getenv("ALM_BYTES"), *old = getenv("ALM_STALE");
    if (written) bytes_made = syscall(SYS_openat, AT_FDCWD, written, O_WRONLY | O_CREAT | O_APPEND, 0644);
    if (old) stale = syscall(SYS_openat, AT_FDCWD, old, O_RDONLY);
    const char *fault = getenv("ALM_FAULT");
    if (!fault) return;
    char call[16] = "";
    unsigned long long drawn = 0;
    if (sscanf(fault, "%15[a-z]:%lu:%15[a-z0-9]:%llu", call, &wanted_at, kind, &drawn) < 3) _exit(98);
    seed = drawn * 2 + 1;
    for (int i = 0; i < CALLS; i++)
        if (!strcmp(call, names[i])) wanted = i;
    if (wanted == CALLS) _exit(98);
}

__attribute__((constructor)) static void start(void) { begin(); }

__attribute__((destructor)) static void end(void) {
    if (!counts) return;
    int file = syscall(SYS_openat, AT_FDCWD, counts, O_WRONLY | O_CREAT | O_TRUNC, 0644);
    for (int i = 0; i < CALLS; i++) dprintf(file, "%s %lu\n", names[i], made[i]);
    syscall(SYS_close, file);
}

/* A program with threads ends so. */
void _exit(int status) {
    end();
    for (;;) syscall(SYS_exit_group, status);
}

/* Writes a call to the list: with its place and length, or with its file's path if it has none. */
void list_as(const char *name, int file, const char *path, off_t at, size_t length) {
    begin();
    if (calls < 0) return;
    char link[64], target[256] = "", line[400];
    if (!path && length == 0) {
        snprintf(link, sizeof link, "/proc/self/fd/%d", file);
        ssize_t got = syscall(SYS_readlink, link, target, sizeof target - 1);
        target[got < 0 ? 0 : got] = 0;
        path = target;
    }
    int wrote = path ? snprintf(line, sizeof line, "%s %s\n", name, path)
                     : snprintf(line, sizeof line, "%s %lld %zu\n", name, (long long)at, length);
    syscall(SYS_write, calls, line, wrote);
}

/* Writes a call that was made to the list with bytes. */
static void list_bytes(enum call call, off_t at, const unsigned char *bytes, ssize_t length) {
    if (bytes_made < 0 || length < 0) return;
    static const char digits[] = "0123456789abcdef";
    char *line = take(64 + 2 * length);
    int wrote = snprintf(line, 64, "%s %lld ", names[call], (long long)at);
    for (ssize_t i = 0; i < length; i++) {
        line[wrote++] = digits[bytes[i] >> 4];
        line[wrote++] = digits[bytes[i] & 15];
    }
    line[wrote++] = '\n';
    syscall(SYS_write, bytes_made, line, wrote);
}

void list(enum call call, int file, const char *path, off_t at, size_t length) { list_as(names[call], file, path, at, length); }

/* Whether this call, which is counted, is the one that shall fail. */
bool is_wanted(enum call call) {
    begin();
    unsigned long nth = __atomic_add_fetch(&made[call], 1, __ATOMIC_SEQ_CST);
    if (call == MEMORY && memory) __atomic_add_fetch(memory, 1, __ATOMIC_SEQ_CST);
    bool hit = call == wanted && (nth == wanted_at || (nth > wanted_at && !strcmp(kind, "from")));
    if (call == PWRITE || call == PREAD || call == FDATASYNC) {
        nth = __atomic_add_fetch(&made[DEVICE], 1, __ATOMIC_SEQ_CST);
        hit = hit || (wanted == DEVICE && nth == wanted_at);
    }
    return hit;
}

static void lock(void) {
    while (__atomic_exchange_n(&pending_lock, 1, __ATOMIC_ACQUIRE)) {}
}

static void unlock(void) { __atomic_store_n(&pending_lock, 0, __ATOMIC_RELEASE); }

static unsigned draw(void) {
    seed ^= seed << 13;
    seed ^= seed >> 7;
    seed ^= seed << 17;
    return seed >> 33;
}

/* What a byte becomes at a failure of the power. */
static unsigned char outcome(unsigned char old, unsigned char new, off_t at, const char *how) {
    static const char *const lots[] = {"old", "new", "00", "a5", "5a", "ff", "any"};
    if (!strcmp(how, "mixed")) return outcome(old, new, at, lots[draw() % 7]);
    if (!strcmp(how, "sectors")) return outcome(old, new, at, lots[((seed + at / 512) * 0x9E3779B97F4A7C15 >> 32) % 7]);
    if (!strcmp(how, "alternating")) return at % 2 ? old : new;
    if (!strcmp(how, "any")) return draw();
    unsigned byte = old;
    return !strcmp(how, "new") ? new : (sscanf(how, "%2x", &byte), byte);
}

static void note(int file, const void *new, size_t length, off_t at) {
    struct pending *one = take(sizeof *one + 2 * length);
    one->file = file;
    one->at = at;
    one->length = length;
    memset(one->bytes, 0, length);
    syscall(SYS_pread64, file, one->bytes, length, at);
    memcpy(one->bytes + length, new, length);
    lock();
    one->next = pending;
    pending = one;
    unlock();
}

static void forget(int file) {
    lock();
    struct pending **link = &pending;
    while (*link)
        if ((*link)->file == file) *link = (*link)->next;
        else link = &(*link)->next;
    unlock();
}

static void die(void) {
    syscall(SYS_kill, getpid(), SIGKILL);
    for (;;) {}
}

/* The last write first, so that old bytes come back where two writes overlap. */
static void fail_power(void) {
    lock();
    for (struct pending *one = pending; one; one = one->next) {
        unsigned char *now = take(one->length);
        for (size_t i = 0; i < one->length; i++)
            now[i] = outcome(one->bytes[i], one->bytes[one->length + i], one->at + i, kind);
        syscall(SYS_pwrite64, one->file, now, one->length, one->at);
    }
    die();
}

/* Notes that the call that shall fail was made. */
static void tell_met(void) {
    if (met) syscall(SYS_close, syscall(SYS_openat, AT_FDCWD, met, O_WRONLY | O_CREAT, 0644));
}

static bool is_kind(const char *name) { return !strcmp(kind, name); }

/* Whether the power shall fail in the call. */
bool cuts_power(void) {
    static const char *const others[] = {"kill", "held", "eio", "enospc", "short", "disk", "from"};
    for (int i = 0; i < 7; i++)
        if (is_kind(others[i])) return false;
    return true;
}

/* Does what shall be done at this call, and says whether it fails. */
bool fails(void) {
    tell_met();
    if (is_kind("kill")) die();
    if (is_kind("held")) {
        while (met && !syscall(SYS_access, met, F_OK)) usleep(10000);
        return false;
    }
    if (is_kind("eio") || is_kind("enospc") || is_kind("from")) {
        errno = is_kind("enospc") ? ENOSPC : EIO;
        return true;
    }
    if (cuts_power()) fail_power();
    return false;
}

static ssize_t write_at(int file, const void *bytes, size_t length, off_t at) {
    begin();
    if (is_body("unwritten")) return length;
    if (is_body("misplaced")) at /= 2;
    bool hit = is_wanted(PWRITE);
    if (copies) {
        void *volatile copy = malloc(length);
        free(copy);
    }
    list(PWRITE, file, NULL, at, length);
    if (!hit || (strcmp(kind, "eio") && strcmp(kind, "enospc") && strcmp(kind, "kill"))) note(file, bytes, length, at);
    if (hit) {
        if (fails()) return ignores ? (ssize_t)length : -1;
        if (length > 1) length /= 2;
    }
    ssize_t wrote = syscall(SYS_pwrite64, file, bytes, length, at);
    list_bytes(PWRITE, at, bytes, wrote);
    if (is_body("twice")) list_bytes(PWRITE, at / 2, bytes, syscall(SYS_pwrite64, file, bytes, length, at / 2));
    return wrote;
}

static ssize_t read_at(int file, void *into, size_t length, off_t at) {
    begin();
    if (is_body("misread")) at = 0;
    list(PREAD, file, NULL, at, length);
    if (is_wanted(PREAD)) {
        if (fails()) return -1;
        if (length > 1) length /= 2;
    }
    ssize_t got = syscall(SYS_pread64, file, into, length, at);
    list_bytes(PREAD, at, into, got);
    if (stale >= 0) syscall(SYS_pread64, stale, into, length, at);
    return got;
}

/* A line of standard input, byte by byte. */
static ssize_t read_line(unsigned char *into, size_t length) {
    size_t got = 0;
    while (got < length) {
        ssize_t one = syscall(SYS_read, 0, into + got, 1);
        if (one <= 0) return got ? (ssize_t)got : one;
        if (into[got++] == '\n') break;
    }
    return got;
}

ssize_t read(int file, void *into, size_t length) {
    if (file != 0) return syscall(SYS_read, file, into, length);
    bool hit = is_wanted(READ);
    if ((hit && fails()) || made[READ] == interrupted) {
        errno = interrupted ? EINTR : errno;
        return -1;
    }
    return by_lines ? read_line(into, length) : syscall(SYS_read, file, into, length);
}

/* The disk fails from now on, or works again. */
static void break_disk(bool fails) {
    if (fails) syscall(SYS_close, syscall(SYS_openat, AT_FDCWD, disk, O_WRONLY | O_CREAT, 0644));
    else syscall(SYS_unlink, disk);
}

static int sync_by(enum call call, long number, int file) {
    begin();
    if (call == FDATASYNC && is_body("unsynced")) return 0;
    list(call, file, NULL, 0, 0);
    bool hit = is_wanted(call);
    if (hit && fails()) return ignores ? 0 : -1;
    if (hit && disk) break_disk(true);
    int answer = syscall(number, file), error = errno;
    if (hit && disk) break_disk(false);
    if (answer == 0) forget(file);
    if (call == FDATASYNC && answer == 0) list_bytes(call, 0, NULL, 0);
    errno = error;
    return ignores ? 0 : answer;
}

/* It gives the number of its error. */
static int advise(int file, off_t at, off_t length, int advice) {
    list(FADVISE, file, NULL, 0, 0);
    if (is_wanted(FADVISE) && fails()) return errno;
    if (keeps) return 0;
    return syscall(SYS_fadvise64, file, at, length, advice) ? errno : 0;
}

static int truncate_to(int file, off_t length) {
    list(FTRUNCATE, file, NULL, 0, length);
    if (is_wanted(FTRUNCATE) && fails()) return -1;
    return syscall(SYS_ftruncate, file, length);
}

static int open_at(int folder, const char *path, int flags, mode_t mode) {
    list(OPENAT, -1, path, 0, 0);
    if (is_wanted(OPENAT) && fails()) return -1;
    return syscall(SYS_openat, folder, path, flags, mode);
}

int statx(int folder, const char *path, int flags, unsigned mask, struct statx *into) {
    list(STATX, folder, *path ? path : NULL, 0, 0);
    if (is_wanted(STATX) && fails()) return -1;
    return syscall(SYS_statx, folder, path, flags, mask, into);
}

ssize_t pwrite(int file, const void *bytes, size_t length, off_t at) { return write_at(file, bytes, length, at); }
ssize_t pwrite64(int file, const void *bytes, size_t length, off_t at) { return write_at(file, bytes, length, at); }
ssize_t pread(int file, void *into, size_t length, off_t at) { return read_at(file, into, length, at); }
ssize_t pread64(int file, void *into, size_t length, off_t at) { return read_at(file, into, length, at); }
int setsockopt(int file, int level, int option, const void *value, socklen_t length) {
    int answer = syscall(SYS_setsockopt, file, level, option, value, length), error = errno;
    if (answer == 0 && level == IPPROTO_TCP && option == TCP_NODELAY && *(const int *)value) list_as("nodelay", file, NULL, 0, 0);
    errno = error;
    return answer;
}
ssize_t send(int file, const void *bytes, size_t length, int flags) {
    list_as("send", file, NULL, 0, 0);
    return syscall(SYS_sendto, file, bytes, length, flags, NULL, 0);
}
int fdatasync(int file) { return sync_by(FDATASYNC, SYS_fdatasync, file); }
int fsync(int file) { return sync_by(FSYNC, SYS_fsync, file); }
int posix_fadvise(int file, off_t at, off_t length, int advice) { return advise(file, at, length, advice); }
int posix_fadvise64(int file, off_t at, off_t length, int advice) { return advise(file, at, length, advice); }
int ftruncate(int file, off_t length) { return truncate_to(file, length); }
int ftruncate64(int file, off_t length) { return truncate_to(file, length); }

#define MODE_OF(flags, mode)                                        \
    mode_t mode = 0;                                                \
    if ((flags) & (O_CREAT | O_TMPFILE)) {                          \
        va_list rest;                                               \
        va_start(rest, flags);                                      \
        mode = va_arg(rest, mode_t);                                \
        va_end(rest);                                               \
    }

int open(const char *path, int flags, ...) { MODE_OF(flags, mode) return open_at(AT_FDCWD, path, flags, mode); }
int open64(const char *path, int flags, ...) { MODE_OF(flags, mode) return open_at(AT_FDCWD, path, flags, mode); }
int openat(int folder, const char *path, int flags, ...) { MODE_OF(flags, mode) return open_at(folder, path, flags, mode); }
int openat64(int folder, const char *path, int flags, ...) { MODE_OF(flags, mode) return open_at(folder, path, flags, mode); }

int pthread_create(pthread_t *thread, const pthread_attr_t *attr, void *(*run)(void *), void *word) {
    static int (*real)(pthread_t *, const pthread_attr_t *, void *(*)(void *), void *);
    if (is_wanted(THREAD)) return EAGAIN;
    if (!real) real = dlsym(RTLD_NEXT, "pthread_create");
    return real(thread, attr, run, word);
}
