/* What the parts of the library have in common: which call is counted, listed, and shall fail. See preload.c. */
#include <stdbool.h>
#include <stddef.h>
#include <sys/types.h>

#define OWN __attribute__((visibility("hidden")))

enum call {
    PWRITE, PREAD, FDATASYNC, FSYNC, FADVISE, FTRUNCATE, OPENAT, STATX, UNLINK, RENAME, FCHOWN, FCHMOD, REALPATH, LOCK, MEMORY, THREAD,
    READ, DEVICE, CALLS
};

/* Writes a call to the list: with its place and length, or with its file's path if it has none. */
OWN void list_as(const char *name, int file, const char *path, off_t at, size_t length);
OWN void list(enum call call, int file, const char *path, off_t at, size_t length);

/* Whether this call, which is counted, is the one that shall fail. */
OWN bool is_wanted(enum call call);

/* Whether the power shall fail in the call. */
OWN bool cuts_power(void);

/* Does what shall be done at this call, and says whether it fails. */
OWN bool fails(void);
