"""How many actions a server shows, for what follows its plant."""
from typing import Callable

from .client import Lost, OtherPlant, Place, Plant, Refused
from .known import known


class Served:
    """How many actions a server shows: those are stored durably."""

    def __init__(self, place: Place, slot: int, say: Callable[..., None] = lambda *_: None):
        self.place, self.slot = place, slot
        self.plant = Plant(place, slot)
        self.say, self.said = say, ""
        self.is_there = False
        self.count = 0

    def look(self) -> int:
        """The count. It stays what it was while the server can't be reached, and is 0 where it has another device than
        before."""
        try:
            if not self.is_there and not self.connect():
                return 0
            self.count = known(self.plant.client).plant().count
        except (Lost, Refused) as lost:
            self.end()
            self.say_once(str(lost), "- trying again")
        except OtherPlant:
            self.forget()
        return self.count

    def connect(self) -> bool:
        """Connects; whether it is to the device of before."""
        try:
            self.plant.connect()
        except OtherPlant as other:  # of an earlier release
            raise Lost(str(other)) from None
        self.is_there, self.said = True, ""
        if self.plant.other:
            self.count = 0
        return not self.plant.other

    def say_once(self, what: str, *more: object) -> None:
        """Says what is so, where it was otherwise before."""
        if what != self.said:
            self.say(what, *more)
        self.said = what

    def end(self) -> None:
        """Ends the connection."""
        self.plant.lose()
        self.is_there = False

    def forget(self) -> None:
        """Forgets the count of a device that is gone."""
        self.end()
        self.plant, self.count = Plant(self.place, self.slot), 0
