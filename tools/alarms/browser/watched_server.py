"""The server whose plant is shown, asked at the first of some slots that answers."""
import itertools
import time
from typing import Callable, Optional

from ..client import Lost, Place, Plant, ServerClient

# Seconds to wait for the reply to a query.
PATIENCE = 1.2


class WatchedServer:
    """A server, and the connection to it while there is one."""

    def __init__(self, place: Place, slots: list[int], say: Callable[..., None]):
        self.slots = itertools.cycle(slots[1:] + slots[:1])
        self.plant = Plant(place, slots[0], patience=PATIENCE)
        self.say, self.said = say, ""
        self.client: Optional[ServerClient] = None
        self.answered = -1e9

    def connect(self) -> ServerClient:
        """The connection; a new one asks which plant it is. `Lost` says that there is none: the next slot is tried
        then."""
        if self.client is None:
            try:
                self.client = self.plant.connect()
            except Lost:
                self.plant.slot = next(self.slots)
                raise
        return self.client

    def heard(self) -> None:
        """The server has answered."""
        self.said, self.answered = "", time.monotonic()

    def say_once(self, what: str, *more: object) -> None:
        """Says what is so, where it was otherwise before."""
        if what != self.said:
            self.say(what, *more)
        self.said = what

    def end(self) -> None:
        """Ends the connection."""
        self.plant.lose()
        self.client = None
