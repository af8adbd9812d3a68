"""What an archive says happened: annunciations, acknowledgements, returns and spells of a state."""
from typing import NamedTuple, Optional


class Annunciation(NamedTuple):
    """An alarm was annunciated."""

    moment: int
    tag: str
    priority: int
    area: int


class Acknowledgement(NamedTuple):
    """An annunciated alarm was acknowledged."""

    moment: int
    tag: str
    priority: int
    area: int
    seconds: int


class Return(NamedTuple):
    """The condition of an annunciated alarm ended: the moment, and that of its last annunciation."""

    moment: int
    tag: str
    annunciated: int


class AttributeChange(NamedTuple):
    """An alarm was given another priority or another setpoint."""

    moment: int
    tag: str
    attribute: str
    value: int


class Denied(NamedTuple):
    """A field of an alarm's row that was archived otherwise than the server showed it."""

    moment: int
    tag: str
    field: str
    archived: str
    shown: str


class Spell(NamedTuple):
    """How long something was so: an alarm stood, was stale or was suppressed, an area was flooded. `end` is none where
    it goes on.

    `since` is its beginning, or the earliest moment at which it is known to have been so.
    """

    kind: str
    tag: str
    priority: int
    area: int
    since: int
    end: Optional[int]

    def seconds(self, begin: int, end: int) -> int:
        """How much of it lies in a span."""
        return max(0, min(end, end if self.end is None else self.end) - max(begin, self.since))
