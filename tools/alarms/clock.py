"""The clock of a plant: sends CLOCK each second, the machine's time in seconds since 1970.

    alm_clock --port P [--jump SECONDS] [--seconds N]

A plant's time moves by CLOCK alone: without this client no shelving ends, no flood ends and nothing becomes stale. And
it never goes back. So a machine's clock that is far ahead by mistake must not set the plant's: no moment is sent that
is more than --jump seconds, 60 where it is left out, above the plant's. While this client runs, the time that went by
is added to that.

Where the machine's clock is farther ahead, as after a night without a server, this client waits and says so. If the
machine's clock is right, one run sets the plant's, here by up to 40,000 seconds:

    alm_clock --port P --jump 40000 --seconds 2

Nobody has to do that where --jump is as long as the server may be down: with 86400 the plant's time goes on by itself
after a day. A new plant stands at moment 0, and takes the machine's time at once.

Where the plant's clock is ahead of the machine's, it goes on at half speed until the machine's has caught up, so that
time in the plant never stands still. This client says so; at its last moment, 1099511627775, the plant's clock stands
still for ever.

It asks the plant's moment by PLANT, tries again where the server can't be reached, and never gives up. With --seconds N
it ends after N seconds, and prints how long replies took.
"""
import statistics
import time
from typing import Optional

from .client import CLOCK, Client, Lost, OtherPlant, Plant, Refused
from .arguments import Parser, add_port, whole_number
from .ending import Fault, end_of, sayer
from .moments import LAST

JUMP = 60
# From so many seconds on, a page's way to set the plant's clock back is named too.
FAR = 86_400


say = sayer("clock")


def steady() -> float:
    """Seconds that nobody sets, also while the machine sleeps."""
    return time.clock_gettime(time.CLOCK_BOOTTIME)


class PlantClock:
    """How far a plant's clock may be moved, and what was said of it."""

    def __init__(self, jump: int):
        self.jump = jump
        self.said = ""
        self.took = 0.0
        self.held = False
        self.forget()

    def forget(self) -> None:
        """Of another device nothing is known."""
        self.sent, self.at = 0, steady()

    def latest(self, moment: int) -> int:
        """The latest moment that may be sent to a plant that stands at one: a new plant takes any."""
        gone_by = self.sent + int(steady() - self.at) if self.sent else 0
        return LAST if moment == 0 else max(moment, gone_by) + self.jump

    def say_once(self, what: str, *words: object) -> None:
        """Says what it does now, where it did something else before."""
        if what != self.said and words:
            say(*words)
        self.said = what

    def send(self, client: Client, moment: int) -> bool:
        began = time.monotonic()
        client.clock(moment)
        self.took = time.monotonic() - began
        self.sent, self.at = moment, steady()
        return True

    def tick(self, client: Client, now: int) -> bool:
        """Does what is to be done in this second; whether a moment was sent."""
        moment = client.plant().moment
        if moment < now:
            return self.follow(client, moment, now)
        return self.go_slowly(client, moment, now)

    def follow(self, client: Client, moment: int, now: int) -> bool:
        """Sends the machine's time, where that isn't too far above the plant's."""
        if now > self.latest(moment):
            ahead = now - moment
            self.say_once(
                "waits",
                (
                    f"the machine's clock is {ahead} s ahead of the plant's, and --jump is {self.jump}: nothing is sent"
                    " until"
                ),
                (
                    "it is set back. If it is right, end this clock and run it once with --jump"
                    f" {ahead + 3600} --seconds 2"
                ),
            )
            return False
        self.send(client, now)
        self.say_once("follows", *(["the plant has the machine's time"] if self.said else []))
        return True

    def go_slowly(self, client: Client, moment: int, now: int) -> bool:
        """Sends each other second a moment one above the plant's, which is the machine's or ahead of it."""
        way_back = "alm_change_table --now brings the plant's states onto a device whose clock is set back"
        if moment >= LAST:
            self.say_once("stands", f"the plant's clock is at its last moment, and takes no other. {way_back}")
            return False
        if moment > now + 1:
            slow = (
                f"the plant's clock is {moment - now} s ahead; it goes at half speed until the machine's has caught up"
            )
            self.say_once("slow", slow + (f". {way_back}" if moment > now + FAR else ""))
        self.held = not self.held
        return not self.held and self.send(client, moment + 1)


def begin(plant: Plant, clock: PlantClock) -> Client:
    """A new connection. Of another device than before nothing is known."""
    client = plant.connect()
    if plant.other:
        clock.say_once(plant.other, plant.other)
        clock.forget()
    return client


def run(plant: Plant, clock: PlantClock, seconds: Optional[int]) -> list[float]:
    """Sends moments, for some seconds or without end; how long the replies took, in seconds."""
    client, taken = None, []
    ends = None if seconds is None else time.monotonic() + seconds
    while ends is None or time.monotonic() < ends:
        try:
            client = client or begin(plant, clock)
            if clock.tick(client, int(time.time())) and seconds is not None:
                taken.append(clock.took)
        except OtherPlant as other:
            clock.say_once(str(other), other)
            client = plant.lose()
        except Refused as refused:
            clock.say_once(str(refused), refused)
        except Lost as lost:
            clock.say_once(str(lost), lost, "- trying again")
            client = plant.lose()
        time.sleep(1 - time.time() % 1)
    return taken


def send_moments(plant: Plant, clock: PlantClock, seconds: Optional[int]) -> None:
    """Sends the machine's time, for some seconds or without end, and prints how long replies took."""
    taken = run(plant, clock, seconds)
    if not taken:
        raise Fault("no moment was taken")
    print(f"{len(taken)} moments, reply {statistics.median(taken) * 1000:.2f} ms, at most {max(taken) * 1000:.2f} ms")


def main() -> None:
    words = Parser("alm_clock", __doc__)
    add_port(words)
    words.add_argument(
        "--jump",
        type=whole_number,
        default=JUMP,
        metavar="SECONDS",
        help="how far above the plant's a moment may be; %(default)s where it is left out",
    )
    words.add_argument(
        "--seconds", type=whole_number, metavar="N", help="end after N seconds, and print how long replies took"
    )
    chosen = words.parse_args()
    end_of(
        "clock", lambda: send_moments(Plant(chosen.port, CLOCK, names=False), PlantClock(chosen.jump), chosen.seconds)
    )


if __name__ == "__main__":
    main()
