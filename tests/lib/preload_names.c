/* The calls on a file's names, owner and lock, a part of preload.c. */
#define _GNU_SOURCE
#include <dlfcn.h>
#include <sys/file.h>
#include <sys/syscall.h>
#include <unistd.h>

#include "preload.h"

int flock(int file, int how) {
    list_as(how & LOCK_UN ? "unlock" : how & LOCK_SH ? "lock-shared" : "lock", file, NULL, 0, 0);
    if (is_wanted(LOCK) && fails()) return -1;
    return syscall(SYS_flock, file, how);
}

int unlink(const char *path) {
    list(UNLINK, -1, path, 0, 0);
    if (is_wanted(UNLINK) && fails()) return -1;
    return syscall(SYS_unlink, path);
}

/* If the power fails in it, it is on the disk. */
int rename(const char *from, const char *to) {
    list(RENAME, -1, from, 0, 0);
    list_as("onto", -1, to, 0, 0);
    bool hit = is_wanted(RENAME);
    if (hit && cuts_power()) syscall(SYS_rename, from, to);
    if (hit && fails()) return -1;
    return syscall(SYS_rename, from, to);
}

int fchown(int file, uid_t owner, gid_t group) {
    list(FCHOWN, file, NULL, 0, 0);
    if (is_wanted(FCHOWN) && fails()) return -1;
    return syscall(SYS_fchown, file, owner, group);
}

int fchmod(int file, mode_t mode) {
    list(FCHMOD, file, NULL, 0, 0);
    if (is_wanted(FCHMOD) && fails()) return -1;
    return syscall(SYS_fchmod, file, mode);
}

char *realpath(const char *path, char *into) {
    static char *(*real)(const char *, char *);
    if (is_wanted(REALPATH) && fails()) return NULL;
    if (!real) real = dlsym(RTLD_NEXT, "realpath");
    return real(path, into);
}
