"""Makes sure that the kernel keeps no old bytes of a device's file, before a server is started.

    alm_uncache DEVICE [--within SECONDS]

After a failed sync Linux keeps bytes that the disk never took, and gives them to whoever reads the file. The server
advises the kernel to forget them, but can't see whether it did: a page that another process has mapped, or is just
reading, stays. This tool advises too, and asks (mincore) until each page was out of the cache once. From then on it
comes from the disk, whoever reads it.

Its status is 0 then. If a page stays for so long (5 seconds, or what --within says), it prints a line with the
processes that have the file mapped, as far as it may see them, and ends with status 1: a server that was started now
might count on what isn't there. The unit of a server runs it before each start.

A file system in memory (tmpfs) has no disk that could refuse a byte, so nothing is asked there. A line says that a
power failure takes the device.
"""
import ctypes
import mmap
import os
import time

from .arguments import Parser, seconds
from .ending import Fault, end_of, sayer

PAUSE = 0.02
libc = ctypes.CDLL(None, use_errno=True)
libc.mmap.restype = ctypes.c_void_p
libc.mmap.argtypes = [ctypes.c_void_p, ctypes.c_size_t, ctypes.c_int, ctypes.c_int, ctypes.c_int, ctypes.c_long]
libc.munmap.argtypes = [ctypes.c_void_p, ctypes.c_size_t]
libc.mincore.argtypes = [ctypes.c_void_p, ctypes.c_size_t, ctypes.c_char_p]


class Cached:
    """The pages of an open file that were in the kernel's cache whenever they were asked for."""

    def __init__(self, file: int):
        self.file, self.size = file, os.fstat(file).st_size
        self.pages = (self.size + mmap.PAGESIZE - 1) // mmap.PAGESIZE
        self.left = set(range(self.pages))
        # no byte of this mapping is touched, so it keeps no page itself
        self.mapping = libc.mmap(None, self.size, mmap.PROT_READ, mmap.MAP_SHARED, file, 0) if self.size else None
        if self.mapping == ctypes.c_void_p(-1).value:
            raise OSError(ctypes.get_errno(), os.strerror(ctypes.get_errno()))

    def forget(self) -> None:
        """Has the kernel write what it still has to, and forget. What can't be written stays, and is told by the
        server's own sync."""
        try:
            os.fdatasync(self.file)
        except OSError:
            pass
        os.posix_fadvise(self.file, 0, 0, os.POSIX_FADV_DONTNEED)

    def look(self) -> None:
        """Asks for each page, and lets those go that aren't there."""
        found = ctypes.create_string_buffer(self.pages)
        if libc.mincore(self.mapping, self.size, found) != 0:
            raise OSError(ctypes.get_errno(), os.strerror(ctypes.get_errno()))
        self.left = {page for page in self.left if found.raw[page] & 1}

    def close(self) -> None:
        if self.mapping:
            libc.munmap(self.mapping, self.size)


def is_in_memory(file: int) -> bool:
    """Whether a file's own file system is one that Linux keeps in memory alone."""
    device = os.fstat(file).st_dev
    with open("/proc/self/mountinfo", encoding="utf-8", errors="replace") as mounts:
        for line in mounts:
            words, _, of_system = line.partition(" - ")
            if words.split(" ")[2] == f"{os.major(device)}:{os.minor(device)}":
                return of_system.split(" ")[0] in ("tmpfs", "ramfs")
    return False


def mappers(file: int) -> list[int]:
    """The processes that have this file mapped, as far as they may be seen."""
    wanted = os.fstat(file)
    name = f"{os.major(wanted.st_dev):02x}:{os.minor(wanted.st_dev):02x} {wanted.st_ino} "
    found = []
    for process in (int(entry) for entry in os.listdir("/proc") if entry.isdecimal()):
        try:
            with open(f"/proc/{process}/maps", encoding="utf-8", errors="replace") as maps:
                if process != os.getpid() and any(name in line for line in maps):
                    found.append(process)
        except OSError:
            continue
    return sorted(found)


say = sayer("uncache")


def uncache(path: str, within: float) -> None:
    """Returns once no old page of a file is in the kernel's cache; `Fault` after that number of seconds."""
    try:
        file = os.open(path, os.O_RDONLY)
    except OSError as error:
        raise Fault(f"{path}: {error.strerror}") from None
    if is_in_memory(file):
        say(f"{path} is in memory alone: a power failure takes it")
        os.close(file)
        return
    cached = Cached(file)
    deadline = time.monotonic() + within
    try:
        while cached.left:
            cached.forget()
            cached.look()
            if cached.left and time.monotonic() > deadline:
                holders = ", ".join(map(str, mappers(file))) or "none that may be seen"
                raise Fault(
                    f"{path}: {len(cached.left)} pages stay in the kernel's cache; mapped by process: {holders}"
                )
            time.sleep(PAUSE if cached.left else 0)
    finally:
        cached.close()
        os.close(file)


def main() -> None:
    words = Parser("alm_uncache", __doc__)
    words.add_argument("device", metavar="DEVICE", help="the device's file")
    words.add_argument(
        "--within", type=seconds, default=5.0, metavar="SECONDS", help="for how long it is tried; 5 if it is left out"
    )
    chosen = words.parse_args()
    end_of("uncache", lambda: uncache(chosen.device, chosen.within))


if __name__ == "__main__":
    main()
