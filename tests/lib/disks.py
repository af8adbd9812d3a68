"""Disks and file systems for tests: loop devices, mounts, copies. All of it needs root."""
import ctypes
import os
import subprocess
import time

from .program import check

# The status of a script that can't run here.
SKIPPED = 77
# Bytes of a page of the kernel's cache.
PAGE = 4096
FIBMAP = 1
NOATIME = 1024

libc = ctypes.CDLL(None, use_errno=True)


def mount(device, at, system, options):
    words = [os.fsencode(word) for word in (device, at, system)]
    check(libc.mount(*words, NOATIME, options.encode()) == 0, "mount", device, os.strerror(ctypes.get_errno()))


def unmount(at):
    for _ in range(100):
        if libc.umount2(os.fsencode(at), 0) == 0:
            return
        time.sleep(0.02)
    check(False, "umount", at, os.strerror(ctypes.get_errno()))


def copy_filled(source, target):
    """Copies a file with holes, hole for hole."""
    size = os.fstat(source).st_size
    os.ftruncate(target, 0)
    os.ftruncate(target, size)
    at = 0
    while at < size:
        try:
            at = os.lseek(source, at, os.SEEK_DATA)
        except OSError:
            return
        end = os.lseek(source, at, os.SEEK_HOLE)
        while at < end:
            at += os.copy_file_range(source, target, min(end - at, 1 << 24), at, at)


def loop_over(path):
    run = subprocess.run(["losetup", "-f", "--show", path], capture_output=True, text=True, check=True)
    return run.stdout.strip()
