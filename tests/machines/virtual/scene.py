"""What every scene of a power failure does: its lines, its files, and how a state is judged."""
import os
import subprocess
from lib import program as common
from lib.program import show
from machine import read


TESTS = common.TESTS


DEVICE = "plant.device"


def compiled(folder, name, text):
    """A library that is loaded before the C library in the machine."""
    source, library = (os.path.join(folder, name + end) for end in (".c", ".so"))
    with open(source, "w", encoding="ascii") as file:
        file.write(text)
    subprocess.run(["cc", "-O2", "-shared", "-fPIC", "-o", library, source], check=True)
    return read(library)


class Scene:
    """`format` of a version, then a desk that is asked line by line. After "ready" the device is there; after the N-th
    reply it stands for N lines, or for the one in doubt as well."""

    table = common.PLANT
    count = 200
    before = ""  # words before the program's
    is_control = False
    systems = ("ext4", "xfs", "btrfs")
    setup = (
        "{before} alm_server format plant.device /tmp/plant.toml --version {version} > /tmp/said && guest mark $LOG"
        " ready"
    )
    asks = " && {before} guest desk $LOG plant.device /tmp/lines"

    def __init__(self, program, folder, seed, scale, version):
        self.program, self.folder, self.seed, self.version = program, folder, seed, version
        self.count = max(20, int(self.count * scale))
        self.prepare()
        self.states = self.course.states
        self.files = {"plant.toml": read(self.table), "lines": b"".join(self.course.lines), **self.more_files()}
        self.script = (self.setup + self.asks).format(before=self.before, version=version)

    def prepare(self):
        self.course = self.course_of(self.seed, self.count, self.lines())

    def course_of(self, seed, count, lines):
        """The lines to a new device, and what it holds after each."""
        return common.Course(self.program, self.folder, seed, count, self.table, lines, version=self.version)

    def lines(self):
        """The desk's lines, or None for drawn ones."""

    def more_files(self):
        return {}

    def recorded(self, marks):
        """Takes the marks of a whole run."""
        common.check(f"r:{self.count}" in marks, "the scene ended after", marks[-2:])

    def summary(self):
        return f"{self.count} requests"

    def most(self, _, draws):
        """How many sets are drawn after these marks."""
        return draws

    def judge(self, at, marks):
        """What is wrong with a disk that is mounted there, after these marks."""
        if "ready" not in marks:
            return self.judge_made(show(self.program, os.path.join(at, DEVICE)))
        return self.judge_kept(show(self.program, os.path.join(at, DEVICE)), self.answered(marks), 1)

    def answered(self, marks):
        return max((int(mark[2:]) for mark in marks if mark.startswith("r:")), default=0)

    def judge_made(self, now):
        """A format that was cut off has left nothing, what isn't formatted, or the plant."""
        if now in (b"fault io", b"fault unformatted", self.states[0]):
            return None
        return f"before it was formatted it is {now[:40]}"

    def judge_kept(self, now, answered, doubted):
        if now in self.states[answered : answered + doubted + 1]:
            return None
        kept = [number for number, one in enumerate(self.states) if one == now]
        return f"answered {answered}, and the device stands for {kept[-1] if kept else now[:40]}"
