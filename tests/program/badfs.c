/* A disk in a file, whose writes fail on demand.
 *
 *     badfs MEDIUM RANGES FAILING REFUSED DISK
 *
 * The file DISK becomes a disk with the bytes of the file MEDIUM, by FUSE, without a cache of its own: what was written to it is in MEDIUM
 * when the write is answered. While a file FAILING is there, each write that meets one of the byte ranges in RANGES (a line each, from
 * and to) does nothing and fails with EIO; a byte is added to REFUSED for each. It ends as DISK is unmounted. It needs root and /dev/fuse.
 */
#define _GNU_SOURCE
#include <errno.h>
#include <fcntl.h>
#include <linux/fuse.h>
#include <stdbool.h>
#include <stdio.h>
#include <stdlib.h>
#include <string.h>
#include <sys/mount.h>
#include <sys/stat.h>
#include <sys/uio.h>
#include <unistd.h>

enum { MOST_WRITTEN = 1 << 20, ROOM = MOST_WRITTEN + 4096 };

static int fuse, medium;
static const char *ranges, *failing, *refused;

static void end(const char *what) {
    perror(what);
    exit(1);
}

/* Answers a request: with an error, or with bytes. */
static void answer(const struct fuse_in_header *asked, int error, const void *bytes, size_t length) {
    struct fuse_out_header head = {.len = sizeof head + length, .error = -error, .unique = asked->unique};
    struct iovec parts[] = {{&head, sizeof head}, {(void *)bytes, length}};
    if (writev(fuse, parts, length ? 2 : 1) < 0 && errno != ENOENT) end("answer");
}

static void answer_init(const struct fuse_in_header *asked, const struct fuse_init_in *in) {
    struct fuse_init_out out = {.major = FUSE_KERNEL_VERSION, .minor = FUSE_KERNEL_MINOR_VERSION, .max_readahead = in->max_readahead};
    out.flags = in->flags & (FUSE_BIG_WRITES | FUSE_MAX_PAGES);
    out.max_background = 16;
    out.congestion_threshold = 12;
    out.max_write = MOST_WRITTEN;
    out.max_pages = MOST_WRITTEN / 4096;
    answer(asked, 0, &out, sizeof out);
}

static void answer_attributes(const struct fuse_in_header *asked) {
    struct stat found;
    if (fstat(medium, &found)) end("medium");
    struct fuse_attr_out out = {.attr_valid = 3600};
    out.attr.ino = FUSE_ROOT_ID;
    out.attr.size = found.st_size;
    out.attr.blocks = found.st_size / 512;
    out.attr.mode = S_IFREG | 0600;
    out.attr.nlink = 1;
    out.attr.blksize = 4096;
    answer(asked, 0, &out, sizeof out);
}

static void answer_open(const struct fuse_in_header *asked) {
    struct fuse_open_out out = {.open_flags = FOPEN_DIRECT_IO};
    answer(asked, 0, &out, sizeof out);
}

static void answer_read(const struct fuse_in_header *asked, const struct fuse_read_in *in) {
    static char bytes[ROOM];
    ssize_t got = pread(medium, bytes, in->size < ROOM ? in->size : ROOM, in->offset);
    if (got < 0) answer(asked, errno, NULL, 0);
    else answer(asked, 0, bytes, got);
}

/* Whether a write is to fail. */
static bool is_refused(unsigned long long at, unsigned long long length) {
    if (access(failing, F_OK)) return false;
    FILE *file = fopen(ranges, "r");
    unsigned long long from, to;
    bool hit = false;
    while (file && fscanf(file, "%llu %llu", &from, &to) == 2) hit = hit || (at < to && from < at + length);
    if (file) fclose(file);
    return hit;
}

static void answer_write(const struct fuse_in_header *asked, const struct fuse_write_in *in) {
    if (is_refused(in->offset, in->size)) {
        int file = open(refused, O_WRONLY | O_CREAT | O_APPEND, 0600);
        if (write(file, "x", 1) != 1) end(refused);
        close(file);
        answer(asked, EIO, NULL, 0);
        return;
    }
    struct fuse_write_out out = {.size = in->size};
    if (pwrite(medium, in + 1, in->size, in->offset) != (ssize_t)in->size) end("medium");
    answer(asked, 0, &out, sizeof out);
}

static void answer_any(const struct fuse_in_header *asked) {
    const void *in = asked + 1;
    switch (asked->opcode) {
    case FUSE_INIT: answer_init(asked, in); break;
    case FUSE_GETATTR: answer_attributes(asked); break;
    case FUSE_OPEN: answer_open(asked); break;
    case FUSE_READ: answer_read(asked, in); break;
    case FUSE_WRITE: answer_write(asked, in); break;
    case FUSE_FSYNC:
    case FUSE_FLUSH:
    case FUSE_RELEASE:
    case FUSE_DESTROY: answer(asked, 0, NULL, 0); break;
    case FUSE_FORGET:
    case FUSE_BATCH_FORGET:
    case FUSE_INTERRUPT: break; /* these want no answer */
    default: answer(asked, ENOSYS, NULL, 0);
    }
}

int main(int count, char **words) {
    if (count != 6) return 2;
    medium = open(words[1], O_RDWR);
    fuse = open("/dev/fuse", O_RDWR);
    if (medium < 0 || fuse < 0) end("medium or /dev/fuse");
    ranges = words[2];
    failing = words[3];
    refused = words[4];
    char options[80];
    snprintf(options, sizeof options, "fd=%d,rootmode=100600,user_id=0,group_id=0", fuse);
    if (mount("badfs", words[5], "fuse", MS_NOSUID | MS_NODEV, options)) end("mount");
    static _Alignas(8) char request[ROOM];
    for (;;) {
        ssize_t got = read(fuse, request, sizeof request);
        if (got >= 0) answer_any((const struct fuse_in_header *)request);
        else if (errno == ENODEV) return 0;
        else if (errno != EINTR && errno != EAGAIN && errno != ENOENT) end("/dev/fuse");
    }
}
