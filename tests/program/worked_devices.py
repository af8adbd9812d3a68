"""Three devices of version 03, and what the program shows of each once bytes of it are changed.

They are what the program made of drawn lines, held against what docs/develop/FORMAT.md makes of its device of version
02 after the same lines. The last three frames of each are then spelled as one, since a desk commits each action alone.
"""
import multiprocessing
import os
from dataclasses import dataclass, field
from typing import Iterator, Sequence

from lib.program import PLANT, Desk, Fault, Wrong, check, draw_lines, ends, run_words
from lib.summed_device import ACTION, CLOSED, FRAME_HEAD, HEADER, SummedDevice
from lib.summed_reader import found

# Bytes at places.
Change = tuple[tuple[int, bytes], ...]
SEED, LINES, JOINED = 5, 400, 3
# So many frames stand in the first device, and behind the turn.
FEW, BEHIND = 9, 8
# Each part of a device, as it is counted.
PARTS = ("header", "head that stands", "image", "frame", "closed gate", "not read")


@dataclass
class Worked:
    """A device, its bytes, and those that its file had before it, at each answer."""

    name: str
    bytes: bytes
    device: SummedDevice
    earlier: list[bytes]
    parts: list[str] = field(default_factory=list)

    def gates(self) -> list[int]:
        """The open gates of the journal."""
        return [at for at, _ in self.device.frames(True, self.half)]

    @property
    def half(self) -> int:
        return found(self.bytes).half

    def name_parts(self) -> None:
        """Says of each byte which part it is of."""
        self.parts = ["not read"] * len(self.bytes)
        other, ends_at = self.device.half(1 - self.half), self.device.frames(True, self.half)[-1][1]
        self.name_part("header", 0, HEADER)
        self.name_part("head that stands", self.device.half(self.half), self.device.image_at(self.half))
        self.name_part("image", self.device.image_at(self.half), self.device.journal(self.half))
        self.name_part("frame", self.device.journal(self.half), ends_at)
        self.name_part("closed gate", ends_at, ends_at + 1)
        self.name_part("closed gate", other, other + 1)

    def name_part(self, name: str, at: int, end: int) -> None:
        self.parts[at:end] = [name] * (end - at)


def changed(text: bytes, change: Change) -> bytes:
    """These bytes at their places."""
    new = bytearray(text)
    for at, some in change:
        new[at : at + len(some)] = some
    return bytes(new)


def said_of(change: Change) -> str:
    """A change in words: where, how long, and how it begins."""
    return "changed at " + " and ".join(f"{at} to {len(some)} bytes {some[:8].hex(' ')}" for at, some in change)


def join_frames(device: SummedDevice, half: int) -> None:
    """Spells the last frames of a half as one."""
    frames = device.frames(True, half)[-JOINED:]
    at, end = frames[0]
    actions = b"".join(device.bytes[one + FRAME_HEAD : ends_at] for one, ends_at in frames)
    device.bytes[at + 13 : at + 15] = (255 * len(actions) // ACTION).to_bytes(2, "big")
    behind = at + FRAME_HEAD + len(actions)
    device.bytes[at + FRAME_HEAD : frames[-1][1] + 1] = bytes(frames[-1][1] + 1 - at - FRAME_HEAD)
    device.bytes[at + FRAME_HEAD : behind], device.bytes[behind] = actions, CLOSED
    device.sum_frame(at, behind)


class Openings:
    """A device, and what the program shows of it once bytes are changed."""

    def __init__(self, program: str, folder: str, text: bytes):
        self.program, self.folder, self.text = program, folder, text
        self.due, self.before = found(text), self.shown(())
        check(not self.due.fault and self.before.startswith(b"NOW "), "the device isn't whole:", self.before)

    def path(self, name: str) -> str:
        """A file of this process alone."""
        return os.path.join(self.folder, f"{name}{os.getpid()}")

    def shown(self, change: Change) -> bytes:
        """What is shown of the device with this change, or its fault's words."""
        path = self.path("opened")
        with open(path, "wb") as file:
            file.write(changed(self.text, change))
        run = run_words(self.program, ["show", path])
        return ends(run, Fault("", "show", 0, said_of(change)), "show") or run.stdout

    def one(self, change: Change) -> str:
        """Whether the change is told, at FORMAT's place; or nothing is changed; or it is silent, by FORMAT too."""
        said, due = self.shown(change), found(changed(self.text, change))
        if due.fault:
            check(said == due.fault.encode(), said_of(change), "is", due.fault, "by FORMAT, and", said)
            return "told"
        is_same = said == self.before
        check(is_same == (due == self.due) and said.startswith(b"NOW "), said_of(change), "shows", said)
        return "as before" if is_same else "silent"

    def all(self, changes: Sequence[Change]) -> list[str]:
        """The same of each of these."""
        with multiprocessing.Pool(os.cpu_count()) as pool:
            return pool.map(self.one, changes, 50)


class Courses:
    """The same lines to a device of version 02 and to one of version 03."""

    def __init__(self, program: str, folder: str):
        self.program, self.folder = program, folder
        self.slots: list[int] = []
        lines = draw_lines(SEED, LINES)
        self.spelled = [self.spell(text) for text in self.grown("02", lines)]
        self.made = self.grown("03", lines)

    def grown(self, version: str, lines: list[bytes]) -> list[bytes]:
        """A new device's bytes, and those after each answer; and which slots asked for its actions."""
        path = os.path.join(self.folder, f"grown{version}")
        run = run_words(self.program, ["format", path, PLANT, "--version", version])
        check(run.returncode == 0, "format", run.stderr)
        texts, self.slots = [read(path)], []
        with Desk(self.program, path) as desk:
            for line in lines:
                if b" OK " in desk.ask(line):
                    self.slots.append(int(line.split()[0]))
                texts.append(read(path))
        return texts

    def spell(self, text: bytes) -> SummedDevice:
        """A device of version 02 as one of version 03."""
        device = device_of(text, os.path.join(self.folder, "spelled"))
        device.spell_03(self.slots)
        return device

    def worked(self) -> Iterator[Worked]:
        """The devices, each as soon as it stands so."""
        yield self.one("half 0 stands", self.at(0, FEW))
        yield self.one("half 1 stands", self.at(1, BEHIND))
        yield self.one("half 0 stands again", self.at(0, BEHIND, 3))

    def at(self, half: int, frames: int, epoch: int = 0) -> int:
        """After how many answers that half stands with so many frames, in an epoch or in the first that it has."""
        for place, device in enumerate(self.spelled):
            if device.standing() == half and len(device.frames(True, half)) == frames:
                if epoch in (0, int.from_bytes(device.bytes[device.half(half) + 1 : device.half(half) + 9], "big")):
                    return place
        raise Wrong(f"no answer leaves half {half} with {frames} frames")

    def made_at(self, half: int, frames: int) -> SummedDevice:
        """The device of version 03 once that half stands with so many frames."""
        return device_of(self.made[self.at(half, frames)], os.path.join(self.folder, "made"))

    def one(self, name: str, place: int) -> Worked:
        """A device of version 03 after so many answers."""
        spelled, made = self.spelled[place], self.made[place]
        half = spelled.standing()
        for part in counted(spelled, half):
            check(spelled.bytes[part] == made[part], name, "isn't spelled as FORMAT has it at", part)
        device = device_of(made, os.path.join(self.folder, "made"))
        join_frames(device, half)
        worked = Worked(name, bytes(device.bytes), device, self.made[:place])
        worked.name_parts()
        return worked


def counted(device: SummedDevice, half: int) -> list[slice]:
    """The parts of a device that are read: header, the half that stands, and the gate of the other one."""
    other = device.half(1 - half)
    end = device.frames(True, half)[-1][1] + 1
    return [slice(0, HEADER), slice(device.half(half), end), slice(other, other + 1)]


def device_of(text: bytes, path: str) -> SummedDevice:
    with open(path, "wb") as file:
        file.write(text)
    return SummedDevice(path)


def read(path: str) -> bytes:
    with open(path, "rb") as file:
        return file.read()
