"""An accepted action, and how it stands in a line."""
from dataclasses import dataclass, field
from typing import Callable, Optional

# The words of actions whose line has an alarm alone; an alarm and a number; an alarm, and ON or OFF.
OF_ALARM = ("ACK", "RESET", "UNSHELVE")
WITH_ARGUMENT = ("VAL", "SHELVE", "PRIO", "SETP")
WITH_SWITCH = ("OOS", "DESIGN")
# Those whose argument is a value of the plant.
OF_VALUE = ("VAL", "SETP")
# How many fields follow each word of an action.
FIELDS = {"CLOCK": 1, **dict.fromkeys(OF_ALARM, 1), **dict.fromkeys(WITH_ARGUMENT + WITH_SWITCH, 2)}
# What people read of each.
WORDS = {"CLOCK": "clock", "ACK": "acknowledged", "RESET": "reset", "UNSHELVE": "unshelved"}
SWITCHED = {
    ("OOS", 1): "out of service",
    ("OOS", 0): "back in service",
    ("DESIGN", 1): "suppressed by design",
    ("DESIGN", 0): "no longer suppressed by design",
}
NUMBERED = {"VAL": "value {}", "SHELVE": "shelved for {} s", "PRIO": "given priority {}", "SETP": "given setpoint {}"}


@dataclass(frozen=True)
class Action:
    """An accepted action, by its number among all. Of CLOCK the argument is the moment, of a switch 1 for ON and 0 for
    OFF; the alarm is 0 where there is none, and so is the argument. Where a device says it, the slot that asked."""

    number: int
    word: str
    alarm: int
    argument: int
    slot: Optional[int] = field(default=None, compare=False)

    def request(self, tags: list[str]) -> str:
        """The action in the words of a request, with the alarm's tag."""
        if self.word == "CLOCK":
            return f"CLOCK {self.argument}"
        words = [self.word, tags[self.alarm]]
        if self.word in WITH_ARGUMENT:
            words.append(str(self.argument))
        if self.word in WITH_SWITCH:
            words.append("ON" if self.argument else "OFF")
        return " ".join(words)


def action_of_words(number: int, word: str, *fields: str) -> Action:
    """The action of this number in the words of its line, which has no id."""
    if word == "CLOCK":
        return Action(number, word, 0, int(fields[0]))
    argument = {"ON": 1, "OFF": 0}[fields[1]] if word in WITH_SWITCH else int(fields[1]) if len(fields) > 1 else 0
    return Action(number, word, int(fields[0]), argument)


def in_words(action: Action, told: Callable[[int], str] = str) -> str:
    """What was done, for people; `told` says how they read a value of the plant."""
    if action.word in NUMBERED:
        value = told(action.argument) if action.word in OF_VALUE else str(action.argument)
        return NUMBERED[action.word].format(value)
    return WORDS.get(action.word) or SWITCHED[action.word, action.argument]
