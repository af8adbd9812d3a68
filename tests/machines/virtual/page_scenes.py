"""Scenes of the pages' blocks that replace a device: a power failure in the middle of them."""
import collections
import os
import re
import subprocess
from lib import program as common
from lib.program import show
from blocks import Blocks, versions
from machine import read
from scene import DEVICE, TESTS, Scene, compiled

VERSION = (TESTS.parent / "VERSION").read_text(encoding="ascii").strip()


class PageScene(Scene):
    """A device with answered actions is replaced by a block of the page, and the server is started again, which here is
    a desk. After the N-th reply plant.device stands for N lines of the new device. Before the first it is the old or
    the new device, and never missing. The old one is always there under some name."""

    count = 40
    setup = (
        "alm_server format plant.device /tmp/plant.toml --version {version} > /tmp/said"
        " && alm_server desk plant.device < /tmp/stored >"
        " /tmp/said2 && sync . && guest mark $LOG ready && sync && bash -e /tmp/block && cat /tmp/desked && [ $(cat"
        " /tmp/desked) = 0 ]"
    )
    asks = ""
    earlier = False
    lies = ""
    STORED = b"17 1 CLOCK 77\n16 1 VAL 0 900\n3 1 ACK 0\n4 1 OOS 3 ON\n"
    # What the block's other commands do here. Where the server is to start, a desk is asked.
    SYSTEMCTL = (
        '#!/bin/sh\ncase "$*" in start*alm_server*) {before} guest desk $LOG /var/lib/alarms/plant.device /tmp/lines;'
        " echo $? > /tmp/desked ;; esac\n"
    )
    RUNUSER = '#!/bin/sh\nwhile [ "$1" != -- ]; do shift; done\nshift\nexec "$@"\n'

    def prepare(self):
        self.missing = 0
        self.blocks = Blocks.earlier() if self.earlier else Blocks.of_page()
        self.old_device = os.path.join(self.folder, "old.device")
        self.format(self.old_device, common.PLANT, "--version", self.version)
        subprocess.run(
            [self.program, "desk", self.old_device], input=self.STORED, check=True, stdout=subprocess.DEVNULL
        )
        self.old = show(self.program, self.old_device)
        self.start = os.path.join(self.folder, "start.device")
        self.make_start()
        self.course = common.Course(self.program, self.folder, self.seed, self.count, start=self.start)

    def format(self, *words):
        subprocess.run([self.program, "format", *words], check=True, stdout=subprocess.DEVNULL)

    def make_start(self):
        """The backup's device."""
        self.format(self.start, common.PLANT, "--version", self.version)

    def block(self):
        raise NotImplementedError

    def more_files(self):
        before = "env LD_PRELOAD=/tmp/lies.so" if self.lies else ""
        self.setup = "sh /tmp/install && " + self.setup
        systemctl = self.SYSTEMCTL.replace("{before}", before)
        texts = {"block": self.block(), "install": self.installing(), "systemctl": systemctl, "runuser": self.RUNUSER}
        files = {"stored": self.STORED, "start.device": read(self.start), "changes": self.changes()}
        files |= {name: text.encode() for name, text in texts.items()}
        if self.lies:
            files["lies.so"] = compiled(self.folder, "lies", self.lies)
        return files

    def installing(self):
        """What makes the machine one on which the block's commands work: this program as each version that the block
        names, and the backup."""
        steps = [
            "set -e",
            f"V={VERSION}",
            "mkdir -p /etc/systemd/system",
            "cp /tmp/plant.toml /etc/alarms/plant.toml",
            f"cp /tmp/start.device /backup/{self.backup}",
            "chmod 755 /tmp/systemctl /tmp/runuser /tmp/changes",
            "cp /tmp/systemctl /tmp/runuser /bin/",
            "cp /tmp/changes /bin/alm_change_table",
        ]
        for version in versions(self.block()):
            top = f"/opt/alarms-{version}"
            steps += [
                f"mkdir -p {top}/examples",
                f"cp /bin/alm_server {top}/",
                f"cp /tmp/changes {top}/examples/change_table.py",
                f"touch {top}/examples/alm_server.service",
            ]
        return "\n".join(steps) + "\n"

    backup = "plant.device"

    def changes(self):
        """A script in place of the tool that brings states over: it prints what the tool printed here."""
        return b"#!/bin/sh\n"

    def judge(self, at, marks):
        if "ready" not in marks:
            return None
        answered = max((int(mark[2:]) for mark in marks if mark.startswith("r:")), default=None)
        now = show(self.program, os.path.join(at, DEVICE))
        if answered is None and now not in (self.old, *self.states[:2]):
            if now == b"fault io" and self.earlier:
                self.missing += 1
            else:
                return f"before a reply it is {now[:40]}"
        if answered is not None and now not in self.states[answered : answered + 2]:
            return f"answered {answered}, and " + self.what(now)
        if not self.earlier and now != self.old:
            return self.judge_old(at)
        return None

    def what(self, now):
        if now == self.old:
            return "plant.device is the old device"
        if now == b"fault io":
            return "there is no plant.device"
        return f"it is {now[:40]}"

    def judge_old(self, at):
        """The old device is there under another name."""
        others = [name for name in os.listdir(at) if name.endswith(".device") and name != DEVICE]
        shown = collections.Counter(show(self.program, os.path.join(at, name)) == self.old for name in others)
        return None if shown[True] else f"the old device isn't there: {others}"

    def summary(self):
        return f"{self.count} requests after it" + (
            f"; before them plant.device is missing in {self.missing} states" if self.missing else ""
        )


class Restore(PageScene):
    """The page's "Restore"."""

    def block(self):
        return self.blocks.restore


class ChangeTable(PageScene):
    """The page's "Change the table"."""

    def block(self):
        return self.blocks.change

    def changes(self):
        return b"#!/bin/sh\ncat /tmp/brought\n"

    def make_start(self):
        """What the page's tool makes of the old device. The block says no version, so it is 02."""
        tool = os.path.join(TESTS, "..", "tools", "alm_change_table")
        table = os.path.join(self.folder, "new.toml")
        with open(table, "wb") as file:
            subprocess.run([self.program, "export", self.old_device], stdout=file, check=True)
        run = subprocess.run([tool, self.old_device, table, "--program", self.program], capture_output=True, check=True)
        self.brought = run.stdout
        self.format(self.start, table)
        subprocess.run([self.program, "desk", self.start], input=self.brought, check=True, stdout=subprocess.DEVNULL)

    def more_files(self):
        return {**super().more_files(), "brought": self.brought}


class WayBack(PageScene):
    """The page's way back of "Upgrade"."""

    def prepare(self):
        super().prepare()
        self.backup = re.search(r"/backup/(\S+)", self.block())[1].replace("$V", VERSION)

    def block(self):
        return f"V={VERSION}\n" + self.blocks.way_back


class RestoreEarlier(Restore):
    """Restore as an earlier release's page had it, with this program."""

    earlier = True


class ChangeEarlier(ChangeTable):
    """Change the table as an earlier release's page had it, with this program."""

    earlier = True


class NameUnsynced(RestoreEarlier):
    """The same, and the program's fsync does nothing. It has to be found out, on ext4: the others keep a rename with
    the next sync."""

    is_control = True
    systems = ("ext4",)
    lies = "int fsync(int file) { return file < 0; }\n"
