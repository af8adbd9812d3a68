"""Two machines with DRBD between them, which stand in for each other as docs/STANDBY.md tells it.

Each is a kernel of Debian's in QEMU, without KVM. What an administrator copies to a machine is copied here, as it is:
the files of deploy/standby. Each machine has two networks: a cable to the other one, which can be cut, and one on which
clients come. No packet leaves this process' network namespace. The switch of their power is played here: a machine that
is switched off is a process that was killed.
"""
import functools
import os
import re
import socket
import subprocess
import threading
import time
from typing import Optional

from machine import INIT, TOOLS, Packages, archive, libraries_of, qemu, read, with_folders
from lib.program import TESTS, check

STANDBY = os.path.join(TESTS, "..", "deploy", "standby")
MODULES = ["virtio_pci", "virtio_blk", "virtio_console", "virtio_net", "crc32c_generic", "ext4", "drbd"]
# What makes a disk of a machine one that is reached by two ways, as by two machines.
SHARED = ["sd_mod", "target_core_mod", "target_core_iblock", "tcm_loop"]
# Where a tool is in the machine, if not in /bin.
PLACES = {
    "drbdadm": "sbin",
    "drbdsetup": "sbin",
    "drbdmeta": "sbin",
    "drbdadm-84": "lib/drbd",
    "drbdsetup-84": "lib/drbd",
}
FOLDERS = [
    "bin",
    "sbin",
    "dev",
    "proc",
    "sys",
    "tmp",
    "run",
    "etc/alarms",
    "etc/drbd.d",
    "etc/haproxy",
    "etc/keepalived",
    "etc/systemd/system",
    "var/lib/alarms",
    "var/lib/drbd",
    "var/lock",
    "var/run/drbd",
    "usr/local/sbin",
]
INSTALLED = "usr/lib/alarms"
NAMES = {1: "alarms-a", 2: "alarms-b"}
# Where clients find a machine, and what it has on the cable.
ADDRESSES = {1: "192.0.2.11", 2: "192.0.2.12"}
CABLE = {1: "10.77.0.1", 2: "10.77.0.2"}
# Where a machine finds what this process serves.
OUTSIDE = "192.0.2.1"
PORTS = (*range(6000, 6019), *range(6020, 6039))
# Starts what a machine has at its start, then runs what it is sent.
RUN = """
hostname {name}
mkdir -p /dev/disk/by-partlabel
for name in alarms north; do ln -s /dev/vda /dev/disk/by-partlabel/$name; done
ln -s /dev/vdb /dev/disk/by-partlabel/south
ip link set eth0 up
ip link set eth1 up
ip address add {address}/24 dev eth0
ip address add {cable}/24 dev eth1
export SAY PATH=/usr/local/sbin:/sbin:/bin
exec 3> $SAY
echo up >&3
exec sh < ${{SAY%?}}2 >&3 2>&1
"""
POWER = """#!/bin/sh
echo "$1 {other}" | nc -w 5 {outside} {port}
"""
RUNUSER = """#!/bin/sh
while [ "$1" != -- ]; do shift; done
shift
exec "$@"
"""
# The disk, as two machines would see it: a target of the kernel's own with two ways to it, each with a lock of its own.
TWO_WAYS = """
mkdir -p /var/target/pr
for module in $(cat /modules.shared); do insmod /modules.d/$module; done
mount -t configfs none /sys/kernel/config
target=/sys/kernel/config/target
mkdir -p $target/core/iblock_0/disk
echo udev_path=/dev/vda > $target/core/iblock_0/disk/control
echo alarms > $target/core/iblock_0/disk/wwn/vpd_unit_serial
echo 1 > $target/core/iblock_0/disk/enable
for way in 1 2; do
    port=$target/loopback/naa.600140500000000$way/tpgt_1
    mkdir -p $port/lun/lun_0
    echo naa.600140511111111$way > $port/nexus
    ln -s $target/core/iblock_0/disk $port/lun/lun_0/port
done
mkdir -p /dev/disk/by-id
until [ -b /dev/sda ] && [ -b /dev/sdb ]; do usleep 50000; done
"""
# The server and its relay, in place of their units.
SYSTEMCTL = """#!/bin/sh
if [ "$*" = "enable --now keepalived" ]; then
    keepalived --dont-fork --log-console > /tmp/keepalived 2>&1 < /dev/null &
    exit
fi
plant=${2#alm_server@}
if [ "$1" = stop ]; then
    kill $(cat /run/$plant.relay /run/$plant)
    while kill -0 $(cat /run/$plant) 2> /dev/null; do usleep 20000; done
    exit
fi
[ "$1" = start ] || exit 1
[ -e /run/$plant ] && kill -0 $(cat /run/$plant) && exit
place=$(sed -n s/^PLACE=//p /etc/alarms/$plant.env)
alm_server serve /var/lib/alarms/$plant.device ${place:---port 5000} > /tmp/serving.$plant 2>&1 &
echo $! > /run/$plant
until grep -q serving /tmp/serving.$plant; do usleep 20000; done
haproxy -f /etc/haproxy/$plant.cfg > /tmp/relay.$plant 2>&1 &
echo $! > /run/$plant.relay
echo "serving at $(cut -d" " -f1 /proc/uptime)" > /dev/console
"""


def first_files(packages: Packages, program: str) -> dict[str, tuple[int, bytes]]:
    """What both machines begin with."""
    files = {folder + "/.keep": (0o100644, b"") for folder in FOLDERS}
    tools = {"bin/alm_server": program, "bin/busybox": packages.find("busybox")}
    for name in [
        *TOOLS,
        "flock",
        "mountpoint",
        "ip",
        "hostname",
        "haproxy",
        "keepalived",
        "mkfs.ext4",
        "sg_persist",
        "dd",
        *PLACES,
    ]:
        tools[f"{PLACES.get(name, 'bin')}/{name}"] = packages.find(name)
    files |= {path: (0o100755, read(at)) for path, at in tools.items()}
    for library in libraries_of(tools.values(), packages.env):
        path = library if library.startswith(("/lib", "/usr")) else "/lib/x86_64-linux-gnu/" + os.path.basename(library)
        files[path[1:]] = (0o100755, read(library))
    modules, shared = packages.modules(MODULES), packages.modules(SHARED)
    files |= {"modules.d/" + os.path.basename(path): (0o100644, read(path)) for path in [*modules, *shared]}
    for name, paths in (("modules", modules), ("modules.shared", [path for path in shared if path not in modules])):
        files[name] = (0o100644, "\n".join(os.path.basename(path) for path in paths).encode())
    files["etc/passwd"] = (0o100644, b"root::0:0::/:/bin/sh\nalarms::1000:1000::/:/bin/sh\n")
    files["etc/group"] = (0o100644, b"root::0:\nalarms::1000:\n")
    files["etc/drbd.conf"] = (0o100644, b'include "drbd.d/*.res";\n')
    files |= {
        f"{INSTALLED}/deploy/standby/{name}": (0o100644, read(os.path.join(STANDBY, name)))
        for name in os.listdir(STANDBY)
    }
    files["init"] = (0o100755, INIT.encode())
    return with_folders(files)


class Power:
    """The switch of the machines' power: `off NAME` takes a machine's away, `status NAME` asks for it. The answer is on
    or off."""

    def __init__(self) -> None:
        self.nodes: dict[str, "Node"] = {}
        self.answers = True
        self.switched: list[str] = []
        self.listener = socket.create_server(("127.0.0.1", 0))
        self.port = self.listener.getsockname()[1]
        threading.Thread(target=self.serve, daemon=True).start()

    def serve(self) -> None:
        while True:
            try:
                stream, _ = self.listener.accept()
            except OSError:
                return
            with stream, stream.makefile("rw") as lines:
                try:
                    word, name = lines.readline().split()
                    if self.answers:
                        lines.write(self.answer(word, name) + "\n")
                        lines.flush()
                except (OSError, ValueError):
                    pass

    def answer(self, word: str, name: str) -> str:
        node = self.nodes.get(name)
        if word == "off" and node and node.is_on:
            self.switched.append(name)
            node.kill()
        return "on" if node and node.is_on else "off"

    def close(self) -> None:
        self.listener.close()


class Node:
    """A machine of the pair, with its disk. It is started and killed any number of times."""

    def __init__(self, me: int, pair: "Pair"):
        self.me, self.name, self.pair = me, NAMES[me], pair
        self.disks = [os.path.join(pair.folder, f"disk{me}{number}") for number in range(2)]
        self.process: Optional[subprocess.Popen] = None
        self.orders: Optional[socket.socket] = None
        self.started = self.ordered = 0

    def path(self, name: str) -> str:
        return os.path.join(self.pair.folder, f"{self.name}-{self.started}.{name}")

    @property
    def is_on(self) -> bool:
        return self.process is not None and self.process.poll() is None

    def start(self) -> None:
        """Begins to start the machine."""
        self.started += 1
        memory = self.path("cpio")
        with open(memory, "wb") as out:
            out.write(self.pair.first)
            out.write(b"\0" * (-out.tell() % 512))
            out.write(archive(with_folders(self.files())))
        open(self.path("said"), "wb").close()
        words = qemu(self.pair.packages, memory, self.path("console"), self.path("said"), 1, 512)
        for port, name in (("orders", "orders"), ("monitor", "monitor")):
            words += ["-chardev", f"socket,id={port},path={self.path(name)},server=on,wait=off"]
        words += ["-device", "virtserialport,chardev=orders,name=orders", "-mon", "chardev=monitor"]
        words += [word for disk in self.disks for word in ("-drive", f"file={disk},format=raw,if=virtio,cache=unsafe")]
        words += self.networks()
        self.process = subprocess.Popen(
            words, env=self.pair.packages.env, stdin=subprocess.DEVNULL, stderr=subprocess.PIPE
        )
        self.orders = self.connect("orders")
        self.pair.carry()

    def files(self) -> dict[str, tuple[int, bytes]]:
        """What only this machine has, and what its administrator has copied."""
        other = NAMES[3 - self.me]
        texts = {
            "task/run.sh": RUN.format(name=self.name, address=ADDRESSES[self.me], cable=CABLE[self.me]),
            "etc/alarms/power": POWER.format(other=other, outside=OUTSIDE, port=self.pair.power.port),
            "bin/systemctl": SYSTEMCTL,
            "bin/runuser": RUNUSER,
        }
        texts |= {f"etc/alarms/{plant}.toml": self.pair.table for plant in ("plant", "north", "south")}
        files = {path: (0o100755, text.encode()) for path, text in texts.items()}
        certificates = {"alarms.pem": f"{self.name}.pem", "alarms-ca.pem": "alarms-ca.pem"}
        return files | {
            "etc/haproxy/" + to: (0o100600, read(os.path.join(self.pair.certificates, name)))
            for to, name in certificates.items()
        }

    def networks(self) -> list[str]:
        """The network of the clients, and the cable."""
        own, ports = ADDRESSES[self.me], self.pair.cable
        forwards = "".join(f",hostfwd=tcp:{own}:{port}-{own}:{port}" for port in PORTS)
        return [
            "-netdev",
            f"user,id=out,net=192.0.2.0/24,host={OUTSIDE}{forwards}",
            "-device",
            f"virtio-net-pci,romfile=,netdev=out,mac=52:54:00:00:02:0{self.me}",
            "-netdev",
            f"socket,id=cable,udp=127.0.0.1:{ports[3 - self.me]},localaddr=127.0.0.1:{ports[self.me]}",
            "-device",
            f"virtio-net-pci,romfile=,netdev=cable,mac=52:54:00:00:01:0{self.me}",
        ]

    def connect(self, name: str) -> socket.socket:
        """One of the process' own sockets, which is there soon after its start."""
        stream, end = socket.socket(socket.AF_UNIX), time.monotonic() + 60
        while True:
            try:
                stream.connect(self.path(name))
                return stream
            except OSError:
                check(
                    self.is_on and time.monotonic() < end,
                    self.name,
                    "doesn't start:",
                    self.process.stderr.read() if not self.is_on else "",
                )
                time.sleep(0.05)

    def kill(self) -> None:
        """Its power fails."""
        self.process.kill()
        self.process.wait()
        self.pair.carry()

    def monitor(self, line: str) -> None:
        """A word to QEMU itself."""
        with self.connect("monitor") as stream:
            stream.sendall(line.encode() + b"\n")
            stream.settimeout(5)
            said = b""
            while said.count(b"(qemu)") < 2:
                said += stream.recv(4096) or b"(qemu)"

    def said(self) -> str:
        """What the blocks said, and what came at the console."""
        return "".join(read(self.path(name)).decode(errors="replace") for name in ("said", "console"))

    def until(self, word: str | re.Pattern, seconds: float) -> None:
        """Waits for what the machine says."""
        end, pattern = time.monotonic() + seconds, re.compile(word)
        while not pattern.search(said := self.said()):
            check(self.is_on and time.monotonic() < end, self.name, "didn't say", pattern.pattern, "but", said[-3000:])
            time.sleep(0.05)

    def send(self, block: str) -> str:
        """Begins to run a block of a page as an administrator would. What it says at its end."""
        self.ordered += 1
        mark = f"END_OF_{self.ordered}"
        self.orders.sendall(f"bash -eu <<'{mark}'; echo \"{mark} $?\"\n{block}\n{mark}\n".encode())
        return mark

    def run(self, block: str, seconds: float, fails: bool = False) -> str:
        """Runs a block to its end: what it said."""
        before = os.path.getsize(self.path("said"))
        mark = self.send(block)
        self.until(re.compile(mark + r" \d+\n"), seconds)
        text = read(self.path("said"))[before:].decode(errors="replace")
        found = re.search(mark + r" (\d+)\n", text)
        check(found and (found[1] != "0") == fails, self.name, "of", block, "came", text[-1500:])
        return text

    def state(self) -> str:
        """DRBD's own line."""
        return self.run("cat /proc/drbd", 30)

    def until_equal(self, seconds: float) -> None:
        """Waits until both disks are the same."""
        self.run(
            "while grep 'cs:' /proc/drbd | grep -qv cs:Connected.*ds:UpToDate/UpToDate; do usleep 100000; done", seconds
        )


class Pair:
    """The two machines, their cable, their switch, and the files that were copied to both."""

    def __init__(
        self, packages: Packages, program: str, folder: str, certificates: str, cable: dict[int, int], table: str
    ):
        self.packages, self.folder, self.certificates, self.cable, self.table = (
            packages,
            folder,
            certificates,
            cable,
            table,
        )
        self.first = first_archive(packages.folder, program)
        self.power, self.is_whole = Power(), True
        self.nodes = {me: Node(me, self) for me in NAMES}
        self.power.nodes = {node.name: node for node in self.nodes.values()}

    def cut(self, is_whole: bool = False) -> None:
        """Cuts the cable, or mends it."""
        self.is_whole = is_whole
        self.carry()

    def carry(self) -> None:
        """A machine sees a carrier on its end of the cable while that is whole and the other machine has power."""
        carries = self.is_whole and all(node.is_on for node in self.nodes.values())
        for node in self.nodes.values():
            if node.is_on:
                node.monitor(f"set_link cable {'on' if carries else 'off'}")

    def close(self) -> None:
        self.power.close()
        for node in self.nodes.values():
            if node.is_on:
                node.kill()


@functools.cache
def first_archive(folder: str, program: str) -> bytes:
    """The first file system of both machines, made once."""
    return archive(first_files(Packages(folder), program))
