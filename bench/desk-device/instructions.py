#!/usr/bin/env python3
"""Instructions that an action costs a desk over a device, of version 02 and of 03, by valgrind's callgrind.

    bench/desk-device/instructions.py [PROGRAM] [--lines 2000]

The desk is run twice over a new device on a memory file system, with as many VAL as --lines says, and with three times
as many: what is more is divided by the lines that are more. Each action is a commit of its own, and no checkpoint
comes. It needs valgrind.
"""
import argparse
import pathlib
import re
import subprocess
import sys
import tempfile

TOP = pathlib.Path(__file__).resolve().parents[2]
BUILT = TOP / "crates/alm_server/out/alm_server"
SIZE = 40_000_000


def instructions(program: str, folder: pathlib.Path, version: str, count: int) -> int:
    """The instructions of a desk's run with this number of actions."""
    device, table = str(folder / "device"), str(folder / "plant.toml")
    words = [program, "format", device, table, "--version", version]
    subprocess.run(words, check=True, stdout=subprocess.DEVNULL)
    lines = "".join(f"16 {number} VAL 0 {800 if number % 2 else 700}\n" for number in range(1, count + 1))
    counted = ["valgrind", "--tool=callgrind", f"--callgrind-out-file={folder / 'out'}", program, "desk", device]
    run = subprocess.run(counted, input=lines, capture_output=True, text=True, check=False)
    found = re.search(r"Collected : (\d+)", run.stderr)
    if run.returncode or not found or run.stdout.count(" OK ") != count:
        sys.exit(f"instructions: the desk over version {version} ended with {run.returncode}: {run.stderr[-200:]}")
    return int(found[1])


def main() -> None:
    words = argparse.ArgumentParser(description=__doc__, formatter_class=argparse.RawDescriptionHelpFormatter)
    words.add_argument("program", nargs="?", default=str(BUILT))
    words.add_argument("--lines", type=int, default=2000)
    chosen = words.parse_args()
    cost = {}
    with tempfile.TemporaryDirectory(prefix="instructions", dir="/dev/shm") as name:
        folder = pathlib.Path(name)
        plant = (TOP / "examples/plant.toml").read_text(encoding="utf-8")
        (folder / "plant.toml").write_text(re.sub(r"(?m)^size = \d+", f"size = {SIZE}", plant), encoding="utf-8")
        for version in ("02", "03"):
            few, many = (instructions(chosen.program, folder, version, times * chosen.lines) for times in (1, 3))
            cost[version] = (many - few) / (2 * chosen.lines)
            print(f"version {version}: {cost[version]:.0f} instructions an action", flush=True)
    print(f"03 beside 02: {cost['03'] / cost['02']:.3f}, {cost['03'] - cost['02']:.0f} more")


if __name__ == "__main__":
    main()
