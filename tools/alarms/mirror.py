"""A plant as `alm_server show` prints it: of a server by its lines, or of a device file.

    alm_mirror --port P         the plant of a server, by its lines alone: what `show` would print while it runs
    alm_mirror DEVICE           the plant of a device file that no server has, or of a copy

By lines all is of one count of actions, that of the first line, and no power failure takes anything of it. It has `-`
for the epoch, which no line tells. It asks at a console's slot: 13, or --slot K.

A server writes an action before it is stored durably, so its file may be ahead of what a power failure leaves. Of a
DEVICE the plant is what stands in the file, and standard error says so. Nothing is written, and no lock is taken.

The module brings what a device has to alm_archive --stopped:

    with Follower(path) as follower:
        for one in follower.look():         # a Begun, then Steps and Gaps
            ..
        follower.mirror.plant               # a PlantModel
"""
import collections
from typing import Iterator, Optional

from .arguments import Parser, add_port, add_slot
from .ending import end_of, sayer
from .device_file import NoDevice
from .judging import read_device
from .known import known
from .line_follower import shown_by_lines
from .plant_mirror import Begun, Mirror, News

say = sayer("alm_mirror")


class Follower:
    """What a device has that no server has, from as far back as the file reaches up to its end."""

    # Why actions are gone.
    lost = "no longer in the file"
    served = None

    def __init__(self, path: str):
        self.path = path
        # the mirror of the device; none before it is begun
        self.begun: Optional[Mirror] = None

    @property
    def mirror(self) -> Mirror:
        """The mirror of the device."""
        return known(self.begun)

    def __enter__(self) -> "Follower":
        return self

    def __exit__(self, *_: object) -> None:
        if self.begun:
            self.mirror.close()

    def look(self) -> Iterator[News]:
        """What is new. `NoDevice` or `FileNotFoundError` says that no device stands at the path."""
        if self.begun is None:
            self.begun = Mirror(self.path, far=True)
            yield Begun(self.mirror.count)
        yield from self.mirror.news()


def shown_of_file(path: str) -> str:
    """What `show` prints of a device, as the file has it."""
    for wrong in read_device(path).wrong():
        raise NoDevice(str(wrong))
    say("the plant is what stands in the file: it may be ahead of what was answered")
    mirror = Mirror(path)
    try:
        collections.deque(mirror.news(), maxlen=0)
        return mirror.show()
    finally:
        mirror.close()


def main() -> None:
    words = Parser("alm_mirror", __doc__)
    words.add_argument("device", metavar="DEVICE", nargs="?", help="a device file that no server has, or a copy")
    add_port(words, required=False)
    add_slot(words, 13)
    chosen = words.parse_args()
    if (chosen.device is None) == (chosen.port is None):
        words.error("one of DEVICE, --port and --sockets is required: a served plant is shown without its DEVICE")
    show = shown_of_file if chosen.device else lambda _: shown_by_lines(chosen.port, chosen.slot)
    end_of("alm_mirror", lambda: print(show(chosen.device), end=""))


if __name__ == "__main__":
    main()
