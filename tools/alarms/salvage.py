"""Makes of a damaged copy of a device the plant up to the damage, and says what is left out.

    alm_check COPY                              what is damaged, and what is whole before it
    alm_salvage COPY --table > same.toml        the copy's table file, with the priorities and setpoints in force
    alm_server format NEW same.toml
    alm_salvage COPY same.toml | alm_server desk NEW

It prints desk lines, as alm_change_table does, for a device that was formatted with the table file; any other table
file of the plant will do too. Standard error says up to which action the plant is brought, and which actions stand
behind the damage, as far as they can be read. They aren't brought, since what they meant depends on what is damaged.

Where the checkpoint itself is damaged, or a half's gate, it says what each half holds, and --half 0 or --half 1 takes
that one: its plant, then the actions of the later half that follow on it. Where a gate is closed that no power failure
closes, --behind goes on with the actions behind it.

Not brought is what alm_change_table doesn't bring. Status 4 is its own too; with any status but 0 and 4 nothing is
printed.
"""
import os
from dataclasses import dataclass
from typing import Iterator, Optional

from .arguments import Parser
from .ending import Fault, end_of, sayer
from .actions import Action
from .device_file import Damaged, DeviceFile, Frame, Head, action_of
from .device_frames import SUMMED, head_of_frame
from .device_rules import ACTION, FRAME_ACTIONS, FRAME_HEAD, GATE_OPEN, text_fault
from .export import lines
from .plant_lines import KEPT_BACK, TableChange, StoppedPlant, read_plant
from .table_file import Table, load_table
from .judging import Judged, actions_at, closed_gate, judge, judge_frame
from .known import known
from .model import PlantModel


say = sayer("salvage")


class NoPlant(Fault):
    """No plant can be taken as it was asked."""


@dataclass(frozen=True)
class Salvaged:
    """A plant, the half that it ends in, and where in that half's segment the first byte stands that isn't brought."""

    plant: PlantModel
    head: Head
    end: int


def head_of(device: DeviceFile, half: int) -> Optional[Head]:
    """The head of a half, whatever its gate is."""
    return device.head_of(half) or device.closed_head_of(half)


def holds(judged: Judged) -> str:
    """What a half holds."""
    if judged.plant is None:
        return f"half {judged.head.half} holds no plant: {judged.damage}"
    return (
        f"half {judged.head.half} holds the plant after {judged.plant.count} actions, at clock {judged.plant.now}:"
        f" --half {judged.head.half} takes it"
    )


def standing(device: DeviceFile) -> Salvaged:
    """The plant of the half that stands."""
    try:
        judged = judge(device, device.standing())
    except Damaged as damage:
        say(damage)
        raise NoPlant(others(device, (0, 1))) from None
    told(device, judged)
    if judged.plant is None:
        raise NoPlant(others(device, (1 - judged.head.half,)))
    return Salvaged(judged.plant, judged.head, judged.end)


def told(device: DeviceFile, judged: Judged) -> None:
    """Says what is wrong with a half, or behind it."""
    closed = closed_gate(device, judged)
    for wrong in (judged.damage, closed):
        if wrong:
            say(wrong)
    if closed and closed.half != judged.head.half:
        say(others(device, (closed.half,)))
    elif closed:
        say("--behind goes on with them")
    elif judged.damage and judged.plant:
        tell_further(device, judged)
    elif not judged.damage:
        say("no damage is found: alm_change_table brings more")


def tell_further(device: DeviceFile, judged: Judged) -> None:
    """Says whether the half before a damaged one goes farther: a checkpoint copies the actions that come meanwhile."""
    before = device.before(judged.head)
    other = judge(device, before) if before else None
    if other and other.count > judged.count:
        say(holds(other))


def others(device: DeviceFile, halves: tuple[int, ...]) -> str:
    """What halves hold."""
    heads = [head for head in (head_of(device, half) for half in halves) if head and head.epoch]
    return "; ".join(holds(judge(device, head)) for head in heads) or "no half holds a plant"


def chosen_half(device: DeviceFile, half: int) -> Salvaged:
    """The plant of a half, and of the later half what follows on it."""
    head, later = head_of(device, half), head_of(device, 1 - half)
    judged = judge(device, head) if head and head.epoch else None
    if judged is None or judged.plant is None:
        raise NoPlant(holds(judged) if judged else f"half {half} holds no plant")
    if judged.damage:
        say(judged.damage)
    if later and later.epoch == judged.head.epoch + 1 and later.count <= judged.plant.count:
        judged = judge(device, later, judged.plant)
        say(judged.damage or f"with the actions of half {later.half}")
    return Salvaged(known(judged.plant), judged.head, judged.end)


def through_gates(device: DeviceFile, found: Salvaged) -> Salvaged:
    """Goes on behind each closed gate that has a whole frame and another frame behind it."""
    plant, head, end = found.plant, found.head, found.end
    while closed := closed_gate(device, Judged(head, plant, end, None)):
        if closed.half != head.half:
            break
        count = actions_at(device, head, end, plant.count + 1)
        frame = device.body_at(head, end, plant.count + 1, count)
        judge_frame(device, head, frame, plant)
        end = frame.end
        for frame in device.frames(head, end, plant.count + 1):
            judge_frame(device, head, frame, plant)
            end = frame.end
    return Salvaged(plant, head, end)


def left_out(device: DeviceFile, found: Salvaged) -> Iterator[Frame]:
    """The frames that aren't brought, as far as they can be read: the first of the same epoch that has a later action,
    and those behind it."""
    segment = device.read(device.segment_at(found.head.half), device.segment)
    at = next(starts(device, found, segment), None)
    while at is not None:
        number = number_at(segment, at, found)
        count = actions_at(device, found.head, at, number)
        end = at + FRAME_HEAD + ACTION * count
        yield Frame(list(readable(segment, at, number, count, found)), end)
        is_next = device.is_open(segment[end : end + 1]) and actions_at(device, found.head, end, number + count)
        at = end if is_next else None


def starts(device: DeviceFile, found: Salvaged, segment: bytes) -> Iterator[int]:
    """Where a frame of the same epoch and with a later action begins."""
    mark, count, at = bytes([GATE_OPEN]) + found.head.epoch.to_bytes(8, "big"), found.plant.count, found.end
    is_ended = not device.is_open(segment[at : at + 1]) and not closed_gate(
        device, Judged(found.head, found.plant, at, None)
    )
    at = segment.find(mark, at + 1) if is_ended else at
    while at >= 0:
        number, most = (
            number_at(segment, at, found),
            count + 1 if at == found.end else count + 1 + device.segment // ACTION,
        )
        if number <= most and number + actions_at(device, found.head, at, number) > count + 1:
            yield at
        at = segment.find(mark, at + 1)


def number_at(segment: bytes, at: int, found: Salvaged) -> int:
    """What a frame at a place says of the number of its first action. Where it shows half of it, that is the least one
    of a frame that has a later action than the last one brought."""
    number = head_of_frame(segment[at : at + FRAME_HEAD], found.head.mark).number
    least = max(1, found.plant.count + 2 - FRAME_ACTIONS)
    return least + (number - least) % 2**32 if found.head.mark == SUMMED else number


def readable(segment: bytes, at: int, number: int, count: int, found: Salvaged) -> Iterator[Action]:
    """The actions of a frame that aren't brought and whose texts keep their rule."""
    for place in range(count):
        start = at + FRAME_HEAD + ACTION * place
        text = segment[start : start + ACTION]
        if number + place > found.plant.count and text_fault(text, found.head.mark) is None:
            yield action_of(text, number + place)


def tell_left_out(device: DeviceFile, found: Salvaged) -> None:
    """Says which actions aren't brought."""
    tags = [alarm.tag for alarm in found.plant.table()]
    frames = list(left_out(device, found))
    actions = [action for frame in frames for action in frame.actions]
    say(
        f"left out: {len(actions)} actions that can be read, in {len(frames)} frames"
        if frames
        else "left out: nothing that can be read"
    )
    for action in actions:
        is_known = action.word == "CLOCK" or action.alarm < len(tags)
        say(
            f"left out: {action.number} {action.request(tags)}"
            if is_known
            else f"left out: {action.number} {action.word} of no alarm"
        )


def salvaged(path: str, half: Optional[int], is_behind: bool) -> tuple[Salvaged, Table]:
    """The plant of a damaged device up to the damage, and its table."""
    device = DeviceFile(path)
    try:
        found = standing(device) if half is None else chosen_half(device, half)
        found = through_gates(device, found) if is_behind else found
        say(f"brought: the plant after {found.plant.count} actions, at clock {found.plant.now}")
        tell_left_out(device, found)
        return found, Table(os.fstat(device.file).st_size, device.areas, found.plant.table())
    finally:
        device.close()


def bring(found: Salvaged, table: Table, new: str) -> int:
    """Prints the lines that bring a plant onto a table file; the status."""
    plant: StoppedPlant = read_plant("\n".join(lines(table, table.size or 0)), found.plant.show(found.head.epoch))
    change = TableChange(plant, load_table(new), False)
    print("".join(f"{line}\n" for line in change.lines()), end="")
    for line in change.report():
        say(line)
    return KEPT_BACK if change.kept_back else 0


def salvage(copy: str, new: Optional[str], half: Optional[int], is_behind: bool) -> int:
    """Prints the copy's table file, or the lines that bring its plant onto a device of the table file `new`; the
    status."""
    found, table = salvaged(copy, half, is_behind)
    if new is not None:
        return bring(found, table, new)
    print("\n".join(lines(table, table.size or 0)))
    return 0


def main() -> None:
    words = Parser("alm_salvage", __doc__)
    words.add_argument("copy", metavar="COPY", help="the damaged device, or better a copy of it")
    words.add_argument(
        "new", metavar="TABLE.toml", nargs="?", help="the table file by which the new device was formatted"
    )
    words.add_argument("--table", action="store_true", help="print the plant's table file")
    words.add_argument(
        "--half", type=int, choices=(0, 1), help="the half to take; the one that stands where it is left out"
    )
    words.add_argument("--behind", action="store_true", help="go on behind a gate that no power failure closes")
    chosen = words.parse_args()
    if chosen.table == (chosen.new is not None):
        words.error("give the table file of the new device, or --table")
    end_of("salvage", lambda: salvage(chosen.copy, chosen.new, chosen.half, chosen.behind))


if __name__ == "__main__":
    main()
