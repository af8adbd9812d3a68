#!/usr/bin/env python3
"""Two machines stand in for each other as docs/STANDBY.md tells it: is an answered action ever lost?

    tests/machines/virtual/standby.py PROGRAM PACKAGES [--rounds ROUND,..] [--times N] [--seed N]

Two virtual machines (tests/machines/virtual/pair.py) have DRBD between them. What an administrator copies is used as it
is: the files of deploy/standby, and the page's blocks, word for word. Clients at slots 0, 5, 16 and 17 ask through the
page's two relays, each with one request out, while machines die, the cable between them is cut, and machines come back.
Each round begins with empty disks. At its end the device is read on the disk of the machine that served last. Each
action that a client had an answer to has to be there at the number of the answer. Any other one there has to be one
that a client sent and had no answer to. The round `defaults` has DRBD's own settings, and has to lose actions.

    died         the first machine dies, and the second takes over by keepalived
    by-hand      the same without keepalived: the page's block is run on the second
    alone        the cable is cut: alarms_alone resumes nothing while the second has power, and resumes
                 once it is off. That one comes back, and takes over
    no-switch    the standby dies where no switch answers: nothing is answered before a word of the administrator's
    change       both are well, and the server changes machines
    cut          the cable is cut: nothing is answered. The first is switched off, and the page's block is
                 run on the second
    cut-alone    with keepalived, the cable is cut: one machine switches the other off and goes on. That one
                 comes back, and stands in later
    back         the first dies, the second takes over, the first comes back; the second dies, and the first takes over
    both         both die at once, and start again
    stale        the cable is cut and the first goes on alone. The second, started again, takes nothing over,
                 even once the first is off
    shared-disk  one disk with two ways to it: the second way takes the disk's lock, and the server on the first ends
    each-other   two plants, of which each machine serves one; the first dies, and the second serves both
    defaults     DRBD's own settings, and the cable is cut

PACKAGES is a folder with Debian's packages unpacked; nothing of them is installed, and what this system has needn't be
there:

    apt-get install -yd --no-install-recommends -o Dir::Cache::archives=$PWD qemu-system-x86 busybox-static kmod
    drbd-utils haproxy \\
        keepalived sg3-utils
    apt-get download $(apt-cache depends linux-image-amd64 | awk '/Depends/ { print $2 }')
    for file in *.deb; do dpkg -x "$file" PACKAGES; done

It needs root, a loop device, unshare, ip, openssl and mkfs.ext4. It uses neither KVM nor a network: all is in a
namespace with loopback alone. A round takes one to three minutes, on a busy machine five. Machines that get too little
of the processors lose each other, as by a cut cable. If something is missing it says so, and ends with status 77.
"""
import argparse
import collections
import os
import shutil
import signal
import socket
import ssl
import subprocess
import sys
import tempfile
import time
from dataclasses import dataclass
from typing import Optional


from machine import Packages
from pair import STANDBY, Node
from lib.program import PLANT, Wrong, check, run_words
from stand import PORT, SLOTS, STEP, Site, make_certificates
from rounds import ROUNDS, Round
from lib.tools import await_true
from lib.disks import SKIPPED, loop_over, mount, unmount

from alarms.device_file import DeviceFile

WITHIN = "ALM_STANDBY_WITHIN"  # set in the namespace
# Half a minute of keepalive, and what a check takes.
GONE = 60


@dataclass(frozen=True)
class Judged:
    """What the device of the machine that served last has of the answered actions."""

    answered: int
    lost: int
    kept: int
    unanswered: int
    wrong: list[str]


def device_of(disk: str, plant: str, folder: str) -> str:
    """A copy of a plant's device on a machine's disk."""
    at, copy = os.path.join(folder, "look"), os.path.join(folder, f"{plant}.last")
    os.makedirs(at, exist_ok=True)
    loop = loop_over(disk)
    try:
        mount(loop, at, "ext4", "")
        try:
            shutil.copyfile(os.path.join(at, f"{plant}.device"), copy)
        finally:
            unmount(at)
    finally:
        subprocess.run(["losetup", "-d", loop], check=True)
    return copy


def judge(one: Round) -> Judged:
    """Holds the devices against what was answered."""
    found = [judge_plant(one, plant, disk) for plant, disk in one.disks.items()]
    answered, lost, kept, unanswered = (sum(column) for column in zip(*(each[:4] for each in found)))
    return Judged(answered, lost, kept, unanswered, [wrong for each in found for wrong in each[4]])


def judge_plant(one: Round, plant: str, disk: str) -> tuple[int, int, int, int, list[str]]:
    """How many actions of a plant were answered, lost, kept without an answer and left without one; and what else is
    wrong."""
    askers = [asker for asker in one.site.askers if asker.plant == plant]
    path = device_of(disk, plant, one.site.folder)
    device = DeviceFile(path)
    head, alarms = device.standing(), [str(alarm) for alarm in range(device.rows)]
    stored = {action.number: action.request(alarms) for frame in device.frames(head) for action in frame.actions}
    wrong = [asker.wrong for asker in askers if asker.wrong]
    check(head.count == 0, "a checkpoint dropped actions: the segment is too short")
    shown = run_words(one.site.program, ["show", path])
    if shown.returncode or b" COUNT %d " % len(stored) not in shown.stdout:
        wrong.append(f"show: {shown.stdout[:60]} {shown.stderr}, and the journal has {len(stored)}")
    answers = [(number, request) for asker in askers for number, (request, _) in asker.answered.items()]
    lost = [number for number, request in answers if stored.get(number) != request]
    left = collections.Counter(
        request for number, request in stored.items() if number not in {number for number, _ in answers}
    )
    unanswered = collections.Counter(request for asker in askers for request in asker.unanswered)
    if left - unanswered and not one.loses:
        wrong.append(f"on the device are actions that nobody asked for: {left - unanswered}")
    return len(answers), len(lost), left.total(), unanswered.total(), wrong


def missing(packages: Packages) -> list[str]:
    """What isn't there of what is needed."""
    lacks = [] if os.geteuid() == 0 else ["root"]
    lacks += [] if os.path.exists("/dev/loop-control") else ["/dev/loop-control"]
    tools = [
        "qemu-system-x86_64",
        "busybox",
        "kmod",
        "drbdadm-84",
        "drbdmeta",
        "haproxy",
        "keepalived",
        "sg_persist",
        "mkfs.ext4",
        "openssl",
        "unshare",
        "ip",
    ]
    lacks += [name for name in tools if not packages.find(name)]
    return lacks + ([] if packages.boot else ["a kernel in PACKAGES/boot"])


class Relay:
    """A server here, and before it the relay of a machine that serves."""

    def __init__(self, words: argparse.Namespace, packages: Packages, folder: str):
        self.certificates = make_certificates(folder)
        shutil.copyfile(os.path.join(self.certificates, "alarms-a.pem"), os.path.join(self.certificates, "alarms.pem"))
        config, device = os.path.join(folder, "plant.cfg"), os.path.join(folder, "relay.device")
        with open(os.path.join(STANDBY, "haproxy.cfg"), encoding="utf-8") as source, open(
            config, "w", encoding="utf-8"
        ) as target:
            target.write(source.read().replace("/etc/haproxy", self.certificates))
        check(run_words(words.program, ["format", device, PLANT]).returncode == 0, "format")
        self.server = subprocess.Popen([words.program, "serve", device, "--port", str(PORT)], stdout=subprocess.PIPE)
        check(self.server.stdout.readline() == b"serving %d\n" % PORT, "the server")
        self.haproxy = subprocess.Popen(
            [packages.find("haproxy"), "-db", "-f", config], env=packages.env, stderr=subprocess.DEVNULL
        )
        await_true("a relay that answers", lambda: self.is_answered("clients", 0))

    def connect(self, name: Optional[str], slot: int) -> ssl.SSLSocket:
        context = ssl.create_default_context(cafile=os.path.join(self.certificates, "alarms-ca.pem"))
        if name:
            context.load_cert_chain(os.path.join(self.certificates, name + ".pem"))
        return context.wrap_socket(
            socket.create_connection(("127.0.0.1", 6000 + slot), timeout=5), server_hostname="alarms-a"
        )

    def is_answered(self, name: Optional[str], slot: int) -> bool:
        """Whether who has this certificate is answered at a slot."""
        try:
            with self.connect(name, slot) as stream:
                return ask(stream)
        except OSError:
            return False

    def close(self) -> None:
        for process in (self.haproxy, self.server):
            process.kill()
            process.wait()


def ask(stream: socket.socket) -> bool:
    """Whether a query is answered."""
    stream.sendall(b"1 STATE 0\n")
    return stream.recv(100).startswith(b"1 STATE")


def relay(words: argparse.Namespace, packages: Packages, folder: str) -> str:
    """The roles of certificates, and a client whose machine goes away without a word."""
    one = Relay(words, packages, folder)
    try:
        may = {
            name: {slot for slot in SLOTS if one.is_answered(name, slot)}
            for name in ("clients", "desk", "feed", "alarms-b", None)
        }
        check(
            may == {"clients": set(SLOTS), "desk": {0, 5}, "feed": {16}, "alarms-b": set(), None: set()},
            "the relay answers",
            may,
        )
        if not shutil.which("nft"):
            return "roles; no nft, so no client went away"
        gone = one.connect("desk", 3)
        check(ask(gone), "a client that is to go away")
        rules = (
            "table inet gone {\nchain out {\ntype filter hook output priority 0\ntcp sport PORT drop\ntcp dport PORT"
            " drop\n}\n}\n"
        )
        subprocess.run(
            ["nft", "-f", "-"], input=rules.replace("PORT", str(gone.getsockname()[1])), text=True, check=True
        )
        began = time.monotonic()
        await_true("the slot of a client that went away", lambda: one.is_answered("desk", 3), GONE)
        return f"roles; the slot of a client that went away was free after {time.monotonic() - began:.0f} s"
    finally:
        one.close()


def parse_nine(packages: Packages) -> None:
    """The file for DRBD 9, which no kernel of Debian 12 can run, is read by its drbdadm, and refused by that of DRBD
    8.4."""
    for name, reads in (("drbdadm", True), ("drbdadm-84", False)):
        words = [packages.find(name), "-c", os.path.join(STANDBY, "alarms-9.res"), "dump", "alarms"]
        run = subprocess.run(
            ["unshare", "--uts", "sh", "-c", 'hostname alarms-a; exec "$@"', "sh", *words],
            env=packages.env,
            capture_output=True,
            text=True,
            check=False,
        )
        check(
            (run.returncode == 0) == reads and (not reads or "on-no-quorum" in run.stdout),
            name,
            run.returncode,
            run.stderr,
        )


def keep_log(node: Node, folder: Optional[str]) -> None:
    """Writes what a machine's kernel logged, DRBD and the page's scripts among it."""
    if folder:
        with open(os.path.join(folder, os.path.basename(node.path("log"))), "w", encoding="utf-8") as file:
            file.write(node.run("dmesg | tail -n 200\n[ ! -e /tmp/keepalived ] || cat /tmp/keepalived", STEP))


def run_round(name: str, words: argparse.Namespace, packages: Packages, seed: int) -> bool:
    """Runs and judges a round, and says what it found. Whether it is as it has to be."""
    folder, began = tempfile.mkdtemp(prefix="standby", dir="/dev/shm"), time.monotonic()
    site = Site(words, packages, words.program, folder, seed)
    try:
        one = ROUNDS[name](site)
        site.stop_clients()
        for node in site.pair.nodes.values():
            if node.is_on:
                keep_log(node, words.logs)
                node.kill()
        judged = judge(one)
    except Wrong as wrong:
        print(f"standby: {name}, seed {seed}: {wrong}; disks are in {folder}", flush=True)
        return False
    finally:
        site.close()
    shutil.rmtree(folder)
    is_right = judged.lost > 0 if one.loses else judged.lost == 0 and not judged.wrong
    verdict = ", as it has to be" if one.loses and is_right else "" if is_right else ", WRONG"
    print(
        (
            f"standby: {name}, seed {seed}: {judged.answered} answered, {judged.lost} lost{verdict};"
            f" {judged.unanswered} without an answer, {judged.kept} of them kept; {one.said};"
            f" {time.monotonic() - began:.0f} s"
        ),
        *judged.wrong,
        flush=True,
    )
    return is_right


def arguments() -> argparse.Namespace:
    """The arguments of the script."""
    parser = argparse.ArgumentParser(description=__doc__.splitlines()[0])
    parser.add_argument("program")
    parser.add_argument("packages")
    parser.add_argument("--rounds", default=",".join(ROUNDS), help="of " + ", ".join(ROUNDS))
    parser.add_argument("--times", type=int, default=1, help="how often each")
    parser.add_argument(
        "--load", type=float, default=6.0, help="seconds that clients ask for between two events, about"
    )
    parser.add_argument(
        "--size",
        type=int,
        default=1_000_000,
        help="bytes of a device: enough that no checkpoint drops an action; a program with checks reads long",
    )
    parser.add_argument("--seed", type=int, default=1)
    parser.add_argument("--logs", metavar="FOLDER", help="keep what the machines logged there")
    words = parser.parse_args()
    words.program = os.path.abspath(words.program)
    words.rounds = [name for name in words.rounds.split(",") if name for _ in range(words.times)]
    return words


def main() -> None:
    words = arguments()
    signal.signal(signal.SIGTERM, lambda *_: sys.exit(1))
    packages = Packages(words.packages)
    lacks = missing(packages)
    if lacks:
        print("standby: skipped, since there is no", ", ".join(lacks))
        sys.exit(SKIPPED)
    if os.environ.get(WITHIN) is None:
        os.execvpe("unshare", ["unshare", "--net", sys.executable, *sys.argv], {**os.environ, WITHIN: "1"})
    # Any address of the clients' network is this machine, and a machine of the pair isn't asked from its own address.
    for line in ("link set lo up", "route add local 192.0.2.0/24 dev lo src 127.0.0.1"):
        subprocess.run(["ip", *line.split()], check=True)
    began = time.monotonic()
    try:
        parse_nine(packages)
        with tempfile.TemporaryDirectory(prefix="standby", dir="/dev/shm") as folder:
            print("standby: the relay:", relay(words, packages, folder), flush=True)
    except Wrong as wrong:
        sys.exit(f"standby: {wrong}")
    right = [run_round(name, words, packages, words.seed + number) for number, name in enumerate(words.rounds)]
    print(f"standby: {len(right)} rounds, {right.count(False)} wrong, {time.monotonic() - began:.0f} s")
    sys.exit(0 if all(right) else 1)


if __name__ == "__main__":
    main()
