"""The head of a frame, by the mark of its half: that of version 03 has half of a number, another count, a checksum."""
from typing import NamedTuple, Optional

from .checksum import checksum
from .device_rules import ACTION, FRAME_ACTIONS, FRAME_HEAD, Broken

# The mark of halves whose frames have a checksum, and the unit in which these count actions.
SUMMED = 253
COUNT_UNIT = 255
# Where the number, the count and the checksum begin, and where the last of them ends.
PLACES, SUMMED_PLACES = (9, 17, FRAME_HEAD), (9, 13, 15)


class FrameHead(NamedTuple):
    """What the head of a frame says. The number is as its text shows it; a count of 0 stands for a wrong one."""

    epoch: int
    number: int
    actions: int

    def end(self, at: int) -> int:
        """The place of the next gate, if the frame's own is at a place."""
        return at + FRAME_HEAD + ACTION * self.actions


def places(mark: int) -> tuple[int, int, int]:
    """Where the number and the count of a frame begin in a half of a mark, and where the count ends."""
    return SUMMED_PLACES if mark == SUMMED else PLACES


def shown(mark: int, number: int) -> int:
    """What a text in a half of a mark shows of the number of an action."""
    return number % 2**32 if mark == SUMMED else number


def head_of_frame(text: bytes, mark: int) -> FrameHead:
    """What the first 19 bytes of a frame say, its gate among them."""
    first, count, end = places(mark)
    field = int.from_bytes(text[count:end], "big")
    actions, rest = divmod(field, COUNT_UNIT if mark == SUMMED else 1)
    is_count = rest == 0 and 1 <= actions <= FRAME_ACTIONS
    return FrameHead(
        int.from_bytes(text[1:9], "big"), int.from_bytes(text[first:count], "big"), actions if is_count else 0
    )


def frame_fault(text: bytes, room: int, epoch: int, number: int, mark: int) -> Optional[Broken]:
    """What is wrong with the head of a frame, as far as its segment has it, where there is this much room from its gate
    on. The checksum isn't judged."""
    first, count, end = places(mark)
    head = head_of_frame(text, mark)
    if room < first or head.epoch != epoch:
        return Broken(1, "epoch of a frame")
    if room < count or head.number != shown(mark, number):
        return Broken(first, "number of a frame's first action")
    if room < end or not head.actions or head.end(0) >= room:
        return Broken(count, "n: how many actions a frame has")
    return None


def sum_fault(text: bytes, body: bytes, mark: int) -> Optional[Broken]:
    """Whether a frame has another checksum than its head and its actions make."""
    end = SUMMED_PLACES[-1]
    if mark != SUMMED or int.from_bytes(text[end:FRAME_HEAD], "big") == checksum(text[1:end] + body):
        return None
    return Broken(end, "checksum of a frame")
