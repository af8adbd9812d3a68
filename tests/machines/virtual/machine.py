"""A machine of its own under the program: a kernel of Debian's in QEMU, without KVM and without a network.

What it is made of comes out of unpacked packages, of which nothing is installed.
"""
import functools
import os
import re
import shutil
import subprocess

HERE = os.path.dirname(os.path.abspath(__file__))
MODULES = ["virtio_pci", "virtio_blk", "virtio_console", "dm_log_writes", "crc32c_generic", "ext4", "xfs", "btrfs"]
# The pages' blocks run with the tools that an operator has. Busybox has the others.
TOOLS = ["bash", "cp", "mv", "ln", "rm", "sync", "chown", "grep", "install", "dmsetup"]
FOLDERS = ["bin", "dev", "proc", "sys", "tmp", "run", "backup", "etc/alarms", "var/lib/alarms"]

INIT = """#!/bin/busybox sh
/bin/busybox --install -s /bin 2> /dev/null
export PATH=/bin
mount -t proc proc /proc
mount -t sysfs sysfs /sys
mount -t devtmpfs dev /dev
mkdir -p /dev/shm
mount -t tmpfs tmp /tmp
for module in $(cat /modules); do insmod /modules.d/$module; done
ip link set lo up
export SAY=/dev/$(ls /dev | grep vport | head -n 1)
cd /task
sh run.sh
poweroff -f
"""


class Packages:
    """A folder with unpacked packages, and this system's own tools, which are taken if the folder doesn't have them."""

    def __init__(self, folder):
        self.folder = os.path.abspath(folder)
        libraries = [os.path.join(self.folder, part, "x86_64-linux-gnu") for part in ("usr/lib", "lib")]
        self.env = {**os.environ, "LD_LIBRARY_PATH": ":".join(libraries)}

    def find(self, name):
        """A tool's path, or None."""
        folders = [os.path.join(self.folder, part) for part in ("usr/bin", "bin", "usr/sbin", "sbin", "lib/drbd")]
        return shutil.which(name, path=":".join(folders)) or shutil.which(
            name, path=os.environ["PATH"] + ":/usr/sbin:/sbin"
        )

    def run(self, name, *words):
        subprocess.run([self.find(name), *words], env=self.env, check=True, stdout=subprocess.DEVNULL)

    @property
    def boot(self):
        """The kernel's path, or None."""
        folder = os.path.join(self.folder, "boot")
        names = [name for name in (os.listdir(folder) if os.path.isdir(folder) else []) if name.startswith("vmlinuz-")]
        return os.path.join(folder, sorted(names)[-1]) if names else None

    def modules(self, names=tuple(MODULES)):
        """The files of modules, each after those that it needs."""
        version = self.boot.split("vmlinuz-")[1]
        top = os.path.join(self.folder, "lib/modules", version)
        subprocess.run(["depmod", "-b", self.folder, version], executable=self.find("kmod"), env=self.env, check=True)
        needs = {}
        with open(os.path.join(top, "modules.dep"), encoding="ascii") as file:
            for line in file:
                path, _, below = line.partition(":")
                needs[os.path.basename(path)[:-3].replace("-", "_")] = [path, *below.split()]
        paths = [path for name in names if name in needs for path in reversed(needs[name])]
        return [os.path.join(top, path) for path in dict.fromkeys(paths)]


def archive(files):
    """A cpio archive of paths with their modes and bytes; folders have none."""
    parts = []
    for number, (path, (mode, content)) in enumerate([*files.items(), ("TRAILER!!!", (0, b""))], 1):
        name = path.encode() + b"\0"
        fields = [number, mode, 0, 0, 1, 0, len(content), 0, 0, 0, 0, len(name), 0]
        head = b"070701" + b"".join(b"%08X" % field for field in fields) + name
        parts += [head, b"\0" * (-len(head) % 4), content, b"\0" * (-len(content) % 4)]
    return b"".join(parts)


def with_folders(files):
    """The same files, after the folders that they are in."""
    folders = {}
    for path in files:
        steps = path.split("/")[:-1]
        for depth in range(1, len(steps) + 1):
            folders["/".join(steps[:depth])] = (0o40755, b"")
    return {**folders, **files}


def read(path):
    with open(path, "rb") as file:
        return file.read()


def libraries_of(paths, env):
    """The shared objects that programs ask for."""
    found = set()
    for path in paths:
        listed = subprocess.run(["ldd", path], env=env, capture_output=True, text=True, check=False).stdout
        found |= set(re.findall(r"(/\S+) \(0x", listed))
    return found


def first_files(packages, program, guest, names, wanted):
    """The machine's first file system, with modules and tools of these names."""
    files = {folder: (0o40755, b"") for folder in FOLDERS if "/" not in folder}
    files |= {folder + "/.keep": (0o100644, b"") for folder in FOLDERS if "/" in folder}
    tools = {"alm_server": program, "guest": guest, "busybox": packages.find("busybox")}
    tools |= {name: packages.find(name) for name in wanted}
    files |= {"bin/" + name: (0o100755, read(path)) for name, path in tools.items()}
    files |= {library[1:]: (0o100755, read(library)) for library in libraries_of(tools.values(), os.environ)}
    modules = packages.modules(names)
    files |= {"modules.d/" + os.path.basename(path): (0o100644, read(path)) for path in modules}
    files["etc/passwd"] = (0o100644, b"root::0:0::/:/bin/sh\nalarms::1000:1000::/:/bin/sh\n")
    files["etc/group"] = (0o100644, b"root::0:\nalarms::1000:\n")
    files["modules"] = (0o100644, "\n".join(os.path.basename(path) for path in modules).encode())
    files["init"] = (0o100755, INIT.encode())
    return with_folders(files)


def qemu(packages, memory, console, said, processors, megabytes):
    """The call of QEMU, but for disks and networks."""
    shares = [word for part in ("qemu", "seabios") for word in ("-L", os.path.join(packages.folder, "usr/share", part))]
    machine = [
        "-nodefaults",
        "-nographic",
        "-no-reboot",
        "-accel",
        "tcg,thread=multi",
        "-cpu",
        "max",
        "-smp",
        str(processors),
        "-m",
        str(megabytes),
    ]
    kernel = ["-kernel", packages.boot, "-initrd", memory, "-append", "console=ttyS0 quiet panic=-1 no_timer_check"]
    ports = [
        "-serial",
        "file:" + console,
        "-device",
        "virtio-serial",
        "-chardev",
        f"file,id=said,path={said}",
        "-device",
        "virtserialport,chardev=said,name=said",
    ]
    return [packages.find("qemu-system-x86_64"), *shares, *machine, *kernel, *ports]


class Machine:
    """A machine that runs a shell script, /task/run.sh. What it sends to the port $SAY is kept."""

    def __init__(self, packages, program, folder, modules=tuple(MODULES), tools=tuple(TOOLS)):
        self.packages, self.folder = packages, folder
        guest = os.path.join(folder, "guest")
        subprocess.run(["cc", "-O2", "-static", "-pthread", "-o", guest, os.path.join(HERE, "guest.c")], check=True)
        self.first = functools.cache(lambda: archive(first_files(packages, program, guest, modules, tools)))
        self.console, self.said = os.path.join(folder, "console"), os.path.join(folder, "said")

    def run(self, files, drives, seconds):
        """What it said, once it has ended. Each drive is a file's path."""
        memory = os.path.join(self.folder, "first.cpio")
        with open(memory, "wb") as out:
            out.write(self.first())
            out.write(b"\0" * (-out.tell() % 512))
            out.write(archive(with_folders({f"task/{name}": (0o100755, text) for name, text in files.items()})))
        open(self.said, "wb").close()
        words = self.words(memory)
        for drive in drives:
            words += ["-drive", f"file={drive},format=raw,if=virtio,cache=unsafe"]
        run = subprocess.run(
            words, env=self.packages.env, stdin=subprocess.DEVNULL, capture_output=True, timeout=seconds, check=False
        )
        if run.returncode:
            raise RuntimeError(run.stderr.decode())
        return read(self.said).decode(errors="replace")

    def words(self, memory):
        """The call of QEMU, but for the disks."""
        return qemu(self.packages, memory, self.console, self.said, 2, 1024)

    def text(self):
        """What its console shows."""
        return read(self.console).decode(errors="replace")
