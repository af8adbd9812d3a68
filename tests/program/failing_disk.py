"""A disk whose writes can be made to fail, and what a power failure leaves of it."""
import fcntl
import os
import shutil
import struct
import subprocess
import time
from lib.program import check, show
from lib.disks import FIBMAP, PAGE, copy_filled, loop_over, mount, unmount


SYSTEMS = {  # the disk's bytes, how it is made, how it is mounted
    "ext4": (16 << 20, ["mkfs.ext4", "-q", "-F", "-b", "4096", "-E", "nodiscard"], ""),
    "xfs": (320 << 20, ["mkfs.xfs", "-q", "-f", "-K"], "nouuid"),
}


class Disk:
    """A disk whose writes can be made to fail, a file system on it, and a second disk for what a power failure
    leaves."""

    def __init__(self, folder, library, badfs, system):
        self.folder, self.system = folder, system
        size, make, self.options = SYSTEMS[system]
        os.makedirs(folder)
        self.library = shutil.copy(library, folder)
        names = ("medium", "ranges", "failing", "refused", "disk", "cut")
        self.medium, self.ranges, self.failing, self.refused, self.disk, self.left = (
            os.path.join(folder, name) for name in names
        )
        self.live, self.after = (os.path.join(folder, name) for name in ("live", "after"))
        for path in (self.medium, self.left):
            with open(path, "wb") as file:
                file.truncate(size)
        for at in (self.live, self.after):
            os.mkdir(at)
        open(self.disk, "wb").close()
        subprocess.run([*make, self.medium], check=True, stdout=subprocess.DEVNULL)
        self.device = os.path.join(self.live, "plant.device")
        self.undo = []
        self.mount(badfs, size)

    def mount(self, badfs, size):
        """Mounts the disk, and the file system on it."""
        daemon = subprocess.Popen([badfs, self.medium, self.ranges, self.failing, self.refused, self.disk])
        self.undo.append(lambda: (unmount(self.disk), daemon.wait(5)))
        while os.path.getsize(self.disk) != size:
            check(daemon.poll() is None, "badfs ended")
            time.sleep(0.01)
        mount(self.loop_over(self.disk), self.live, self.system, self.options)
        self.undo.append(lambda: unmount(self.live))
        self.loop = self.loop_over(self.left)

    def loop_over(self, path):
        loop = loop_over(path)
        self.undo.append(lambda: subprocess.run(["losetup", "-d", loop], check=True))
        return loop

    def close(self):
        for step in reversed(self.undo):
            step()

    def put(self, content):
        """Writes the whole device again, in its old place on the disk, and says to badfs where that is."""
        file = os.open(self.device, os.O_RDWR | os.O_CREAT, 0o600)
        os.pwrite(file, content, 0)
        os.fsync(file)
        with open(self.ranges, "w", encoding="ascii") as ranges:
            for page in range((len(content) + PAGE - 1) // PAGE):
                block = struct.unpack("i", fcntl.ioctl(file, FIBMAP, struct.pack("i", page)))[0]
                print(block * PAGE, (block + 1) * PAGE, file=ranges)
        os.close(file)
        if os.path.exists(self.refused):
            os.remove(self.refused)

    def has_refused(self):
        """Whether a write of the device has failed."""
        return os.path.exists(self.refused)

    def fail(self, fails):
        if fails:
            open(self.failing, "wb").close()
        else:
            os.remove(self.failing)

    def cut(self, program):
        """What `show` prints of the device if the power fails now."""
        source, target = os.open(self.medium, os.O_RDONLY), os.open(self.left, os.O_RDWR)
        copy_filled(source, target)
        os.close(source)
        os.close(target)
        mount(self.loop, self.after, self.system, self.options)
        try:
            return show(program, os.path.join(self.after, "plant.device"))
        finally:
            unmount(self.after)
