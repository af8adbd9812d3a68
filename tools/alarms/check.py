"""Says whether the bytes of a device are damaged, and what is whole before the damage.

    alm_check DEVICE
    alm_check DEVICE --metrics      the same as metrics, for the textfile collector of Prometheus' node exporter

DEVICE may be a copy, or one that a server has open: it is read without the lock, and nothing is written. Every field
that a server reads as it opens a device is held against its rule in docs/develop/FORMAT.md, and each action is done
again. The first field that breaks its rule is named with its place. It is the one of `fault damaged`.

A server doesn't notice all damage: a gate that is closed ends the journal. So a gate is named too if what stands behind
it was only written once the gate was stored, since no power failure closes that. The actions behind it are hidden from
the server.

The format has no checksum. Damage that leaves each rule kept isn't seen, as another setpoint, or the closed gate of the
last frame.

Status 0: nothing is wrong. 1: the lines say what is.

With --metrics it prints `alarms_device_damaged`: 1 for each place that is damaged, with its half, else 0; and how many
bytes of the journal are used, how many it has, and the epoch, which grows by one with each checkpoint. Each has the
label `plant`: the file's name without its ending. Status 0 says that these are all; of a file that is no device nothing
is printed.
"""
import argparse
import sys
from typing import Iterator, Optional

from .arguments import Parser
from .ending import end_of
from .device_file import Damaged, DeviceFile
from .device_metrics import page
from .judging import Judged, Reading, judge, read_device


def stands_for(judged: Judged) -> str:
    """What a half holds, up to its first damage."""
    head = judged.head
    if judged.plant is None:
        return f"half {head.half}, epoch {head.epoch}: no plant"
    return f"half {head.half}, epoch {head.epoch}: {judged.plant.count} actions, clock {judged.plant.now}"


def wrong_lines(path: str, reading: Reading) -> Iterator[str]:
    """What is wrong with a device, and what is whole before it."""
    yield from map(str, reading.wrong())
    if reading.closed:
        yield "a server takes no notice of that gate: it answers as if nothing stood behind it"
    if reading.judged:
        yield f"whole before it: {stands_for(reading.judged)}"
    if reading.judged is None or reading.judged.plant is None:
        yield from other_lines(path, reading.judged)


def other_lines(path: str, standing: Optional[Judged]) -> Iterator[str]:
    """What the halves hold that a server doesn't read."""
    try:
        device = DeviceFile(path)
    except Damaged:
        return
    try:
        for half in (0, 1):
            head = device.head_of(half) or device.closed_head_of(half)
            if head and head.epoch and (standing is None or half != standing.head.half):
                yield f"the other half holds: {stands_for(judge(device, head))}" if standing else stands_for(
                    judge(device, head)
                )
    finally:
        device.close()


def check(chosen: argparse.Namespace) -> int:
    """Says whether a device is whole, in lines or as metrics; the status."""
    path = chosen.device
    if chosen.metrics:
        sys.stdout.write(page(path))
        return 0
    reading = read_device(path)
    if reading.place is None and reading.judged is not None:
        print(f"{path} is whole: {stands_for(reading.judged)}")
        return 0
    print("\n".join(wrong_lines(path, reading)))
    return 1


def main() -> None:
    words = Parser("alm_check", __doc__)
    words.add_argument("device", metavar="DEVICE", help="the device file, or a copy of it")
    words.add_argument("--metrics", action="store_true", help="print metrics in Prometheus' format, once")
    chosen = words.parse_args()
    end_of("check", lambda: check(chosen))


if __name__ == "__main__":
    main()
