#!/usr/bin/env python3
"""A device of version 02 becomes one of 03 and goes back, and each call of that fails once.

    tests/program/upgrade.py PROGRAM [--short]

`upgrade` makes a new file for the plant of a device, and gives it the device's name. Tried is, both ways:

- it shows, exports and answers the same, and the desk goes on with the replies that it owes; header, head and sums are
  as docs/develop/FORMAT.md has them, and an older program refuses version 03 by its name;
- each call fails once, and the process is killed there, or the power fails: the name has a whole device with the same
  plant, and the old one, untouched, unless the folder's last sync failed; no file is left beside it but by a kill;
- each request for memory is refused;
- a device in use, one that isn't whole, a link, permissions and owner, files that lie in the way.
"""
import fcntl
import os
import shutil
import subprocess
import sys

from lib.places import EXAMPLES
from lib.program import Course, Wrong, as_user, begin, check, finish, run_words
from lib.summed_device import CLOSED, HEAD, HEADER, MARK_03, OPEN, SummedDevice

from upgraded import NONE, Failing, answers, content

# The names that a release before 0.4.0 knows.
EARLIER = (b"ALMSRV01", b"ALMSRV02")
MARK_02 = 2
EARLIEST = str(EXAMPLES / "earlier_release" / "plant.device")
NOBODY = 65534


def count_in(before: list[bytes]) -> int:
    """The count of actions that a device's answers show."""
    return int(before[0].split()[3])


def check_spelled(path: str, version: str, count: int) -> None:
    """A new device of a version for a plant after so many actions: half 0 in epoch 1, and no frame."""
    device = SummedDevice(path)
    is_summed = version == "03"
    closed = CLOSED if is_summed else 0
    gates = [device.bytes[at] for at in (0, HEADER, device.journal(0), device.half(1))]
    check(gates == [OPEN, OPEN, closed, closed], version, "gates", gates)
    name = bytes(device.bytes[1:9])
    check(name == b"ALMSRV" + version.encode(), "the header's name is", name)
    check((name in EARLIER) != is_summed, "releases before 0.4.0 know", name)
    mark = MARK_03 if is_summed else MARK_02
    head, said = device.bytes[HEADER + 1 : HEADER + HEAD], (1).to_bytes(8, "big") + bytes([mark]) + count.to_bytes(
        7, "big"
    )
    if is_summed:
        device.sum_half(0)
        said += device.bytes[HEADER + 17 : HEADER + HEAD]
    else:
        said += device.image.to_bytes(8, "big")
    check(head == said, version, "head", head)


class Scenes(Failing):
    """The same, and what else may be of a device and its folder."""

    def there_and_back(self, course: Course) -> dict[str, str]:
        """A course's device goes to 03, on with its lines, and back. Devices of both versions in mid course."""
        half, mid = len(course.lines) // 2, {}
        self.put(course.fresh)
        run = run_words(self.program, ["desk", self.device], lines=b"".join(course.lines[:half]))
        check(run.stdout == b"".join(course.replies[:half]), "the desk's first half")
        before = answers(self.program, self.device)
        count = count_in(before)
        for version, other in (("03", "02"), ("02", "03")):
            mid[other] = os.path.join(self.folder, f"mid{other}")
            shutil.copyfile(self.device, mid[other])
            self.upgrades(version, count)
            check_spelled(self.device, version, count)
            check(answers(self.program, self.device) == before, version, "answers otherwise")
            course.goes_on(shutil.copyfile(self.device, mid[other] + ".on"), half, NONE)
        one, other = SummedDevice(mid["03"]), SummedDevice(self.device)
        image = slice(one.image_at(0), one.journal(0))
        check(one.bytes[image] == other.bytes[image], "the image of 02 is another one than that of 03")
        return mid

    def earlier(self) -> None:
        """A device of version 01 becomes one of either."""
        for version in ("02", "03"):
            self.put(EARLIEST)
            before = answers(self.program, self.device)
            count = count_in(before)
            self.upgrades(version, count)
            check_spelled(self.device, version, count)
            check(answers(self.program, self.device) == before, "version 01 as", version, "answers otherwise")

    def in_use(self, source: str) -> None:
        """A device that a process has open is refused; while one is upgraded, none gets it."""
        self.put(source)
        with open(self.device, "rb") as file:
            fcntl.flock(file, fcntl.LOCK_EX)
            self.refused(b"io", "a device in use")
        with self.held("rename", 1) as process:
            for word in ("desk", "show", "upgrade"):
                run = run_words(self.program, [word, self.device])
                check(run.stderr == b"fault io\n", word, "beside an upgrade", run)
        said = process.communicate(timeout=60)
        check(process.returncode == 0 and said[0].startswith(b"upgraded 03 "), "an upgrade that was asked beside", said)

    def replaced(self, source: str) -> None:
        """While one is upgraded, another file gets its name, or a link the new one's: neither changes."""
        self.put(source)
        made = self.made("03")
        opened = [call for call in made if call[0] == "openat"].index(("openat", "beside")) + 1
        asked = sum(call[0] == "statx" for call in made)
        other = os.path.join(self.folder, "other")
        for call, at in (("openat", opened), ("statx", asked)):
            self.put(source)
            with open(other, "w", encoding="ascii") as file:
                file.write("other")
            with self.held(call, at) as process:
                if call == "openat":
                    os.symlink(other, self.beside)
                else:
                    os.replace(other, self.device)
            said = process.communicate(timeout=60)
            check(said == (b"", b"fault io\n"), "a name that changed at", call, "gave", said)
            left = content(other if call == "openat" else self.device)
            check(left == b"other" and not os.path.lexists(self.beside), "a name that changed at", call, "left", left)

    def no_device(self, source: str) -> None:
        """Bytes that aren't those of a whole device, and no file."""
        self.put(source)
        os.remove(self.device)
        self.refused(b"io", "no file")
        whole = bytearray(content(source))
        whole[HEADER] = 0
        for text, name in ((b"", b"unformatted"), (bytes(30_000), b"unformatted"), (whole, b"damaged 2 23")):
            with open(self.device, "wb") as file:
                file.write(text)
            self.refused(name, "no whole device")

    def in_the_way(self, source: str, count: int) -> None:
        """A link to the device stays, and leads to the new one. What lies beside the device goes, and no more."""
        self.put(source)
        links = [os.path.join(self.folder, name) for name in ("link", "link to it")]
        os.symlink(os.path.join("here", "plant.device"), links[0])
        os.symlink("link", links[1])
        other = os.path.join(self.folder, "other")
        for lies in ("a rest", "a link", "a link to nothing"):
            self.put(source)
            with open(other, "w", encoding="ascii") as file:
                file.write("other")
            if lies == "a rest":
                shutil.copyfile(source, self.beside)
            else:
                os.symlink(other if lies == "a link" else os.path.join(self.folder, "nothing"), self.beside)
            self.upgrades("03", count, links[1])
            check(content(other) == b"other", lies, "was written through")
            check(not os.path.exists(os.path.join(self.folder, "nothing")), lies, "was made")
            check([os.readlink(link) for link in links] == ["here/plant.device", "link"], "the links are", links)
        self.put(source)
        os.mkdir(self.beside)
        check(self.upgrade("03").stderr == b"fault io\n", "a folder in the way")
        check(content(self.device) == content(source), "a folder in the way, and another device")

    def owner_stays(self, source: str, count: int) -> str:
        """The new file has the old one's permissions, and its owner, or isn't made. What was tried, in a word."""
        for mode in (0o600, 0o640, 0o664, 0o444):
            self.put(source)
            os.chmod(self.device, mode)
            if mode == 0o444 and os.geteuid() != 0:
                continue
            self.upgrades("03", count)
            check(os.stat(self.device).st_mode & 0o7777 == mode, oct(mode), "became", oct(os.stat(self.device).st_mode))
        if os.geteuid() != 0:
            return "without other owners, which needs root"
        self.put(source)
        os.chown(self.device, NOBODY, 12345)
        self.upgrades("03", count)
        found = os.stat(self.device)
        check((found.st_uid, found.st_gid) == (NOBODY, 12345), "root takes the device:", found)
        self.put(source)
        os.chmod(self.device, 0o666)
        for path in (self.folder, self.here):
            os.chmod(path, 0o777)
        run = as_user(NOBODY, NOBODY, [], lambda: self.upgrade("03").stderr)
        check(run == str(b"fault io\n"), "who can't keep the owner:", run)
        left = os.stat(self.device)
        check((left.st_uid, os.listdir(self.here)) == (0, ["plant.device"]), "who can't keep the owner leaves", left)
        os.chown(self.device, NOBODY, 0)
        run = as_user(NOBODY, NOBODY, [], lambda: self.upgrade("03").stderr)
        check(run == str(b"fault io\n"), "who can't keep the group:", run)
        os.chown(self.device, NOBODY, NOBODY)
        run = as_user(NOBODY, NOBODY, [], lambda: self.upgrade("03").stdout)
        check(run == str(b"upgraded 03 %d\n" % count), "the owner's own upgrade:", run)
        return "with other owners"

    def full_output(self, source: str, count: int) -> None:
        """Standard output takes nothing: it is upgraded, and the fault is reported."""
        self.put(source)
        with open("/dev/full", "wb") as full:
            run = subprocess.run(
                [self.program, "upgrade", self.device], stdout=full, stderr=subprocess.PIPE, check=False
            )
        check((run.returncode, run.stderr) == (3, b"fault io\n"), "a full output", run)
        run = self.upgrade("03")
        check(run.stdout == b"unchanged 03 %d\n" % count, "after a full output", run)

    def words(self) -> None:
        """Words that aren't its own."""
        for words in (
            [],
            ["a", "b"],
            ["a", "--version"],
            ["a", "--version", "01"],
            ["a", "--version", "3"],
            ["a", "--to", "02"],
        ):
            run = run_words(self.program, ["upgrade", *words])
            check((run.returncode, run.stderr) == (1, b"fault usage\n"), words, run)


def main() -> None:
    program, step, folder = begin("upgrade", sys.argv, 1, 23)
    scenes = Scenes(program, folder, step)
    try:
        scenes.there_and_back(Course(program, folder, 7, 420))
        course = Course(program, folder, 5, 60)
        mid = scenes.there_and_back(course)
        count = count_in(answers(program, mid["02"]))
        for version, source in (("03", mid["02"]), ("02", mid["03"])):
            scenes.calls_fail(source, version)
        scenes.memory_fails(mid["02"])
        scenes.earlier()
        scenes.in_use(mid["02"])
        scenes.replaced(mid["02"])
        scenes.no_device(mid["02"])
        scenes.in_the_way(mid["02"], count)
        owners = scenes.owner_stays(mid["02"], count)
        scenes.full_output(mid["02"], count)
        scenes.words()
    except Wrong as wrong:
        sys.exit(f"upgrade: {wrong}; devices are in {folder}")
    finish("upgrade", folder, f"{scenes.done} failures, kills and power cuts, none wrong; {owners}")


if __name__ == "__main__":
    main()
