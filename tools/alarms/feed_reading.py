"""What a source says: a reading, and how one is read from JSON.

A reading has a name, a text that may be a value, and what is known of its quality and its time. `moment` and `silent`
are seconds of the machine's monotonic clock; `time` is in seconds since 1970, by the source's clock.
"""
import json
import math
from datetime import datetime
from typing import NamedTuple, Optional

# Seconds by which a source's clock may be ahead of this machine's before that is said.
AHEAD = 5.0
# What stands in the place of a letter that can't be printed.
HOLDER = "\N{REPLACEMENT CHARACTER}"


class BadValue(Exception):
    """A text that is no value."""


class NoMessage(Exception):
    """A line that isn't the JSON of a reading."""


class Reading(NamedTuple):
    """What a source says of a name.

    Without a text it has no value, and `why` says why. One that isn't live, as a retained message, is a value but no
    sign that its source lives.
    """

    name: str
    text: Optional[str]
    moment: float
    time: Optional[float] = None
    is_live: bool = True
    why: str = ""
    line: str = ""

    def __str__(self) -> str:
        return self.line or (self.name if self.text is None else f"{self.name},{self.text}")


def text_of(value: object) -> Optional[str]:
    """A value of JSON as the text that it is written as; a boolean is 1 or 0."""
    if isinstance(value, bool):
        return "1" if value else "0"
    if value is None or isinstance(value, str):
        return value
    raise NoMessage("the value is neither a number, a text, a boolean nor null")


def time_of(value: object) -> Optional[float]:
    """A moment of JSON in seconds since 1970: a number of them, or a text of ISO 8601 with its zone."""
    if value is None:
        return None
    if not isinstance(value, str):
        raise BadValue("the time is neither a number nor a text")
    try:
        found = float(value)
    except ValueError:
        found = iso_time(value)
    if not math.isfinite(found):
        raise BadValue("the time is no time")
    return found


def iso_time(text: str) -> float:
    try:
        moment = datetime.fromisoformat(text)
        if moment.tzinfo is None:
            raise BadValue("the time has no zone")
        return moment.timestamp()
    except (ValueError, OverflowError):
        raise BadValue("the time is no time") from None


def objects(text: str) -> dict[str, object]:
    """An object of JSON. Its numbers stay the texts that they are, so that no digit is lost."""
    try:
        found = json.loads(text, parse_float=str, parse_int=str, parse_constant=str)
    except (ValueError, RecursionError):
        raise NoMessage("no JSON") from None
    if not isinstance(found, dict):
        raise NoMessage("no JSON object")
    return found


def of_object(name: str, found: dict[str, object], moment: float, is_live: bool, line: str) -> Reading:
    """The reading in an object with a value, and maybe its quality and time."""
    if "value" not in found:
        raise NoMessage("no value in the JSON")
    quality = found.get("quality")
    try:
        time = time_of(found.get("time"))
    except BadValue as bad:
        return Reading(name, None, moment, None, is_live, str(bad), line)
    if quality is not None and not is_usable(quality):
        return Reading(name, None, moment, time, is_live, f"the quality is {quality}", line)
    text = text_of(found["value"])
    return Reading(
        name,
        None if text is None else text.strip(),
        moment,
        time,
        is_live,
        "" if text is not None else "no value",
        line,
    )


def is_usable(quality: object) -> bool:
    """Whether a quality says that there is a value: good or uncertain, by the words of OPC UA or OPC."""
    return isinstance(quality, str) and quality.lower().startswith(("good", "uncertain"))


def of_payload(name: str, payload: str, moment: float, is_live: bool, line: str = "") -> Reading:
    """The reading in a payload of MQTT, whose topic is the name: the value itself, or an object of JSON."""
    payload = payload.strip()
    if not payload.startswith("{"):
        return Reading(name, payload, moment, None, is_live, "", line)
    try:
        return of_object(name, objects(payload), moment, is_live, line)
    except NoMessage as no:
        return Reading(name, None, moment, None, is_live, str(no), line)


def of_line(line: str, moment: float) -> Reading:
    """The reading in a line of JSON: what a gateway prints, or a message as `mosquitto_sub -F %j` does."""
    found = objects(line)
    if "topic" in found:
        return of_message(found, moment, line)
    name = found.get("name")
    if not isinstance(name, str):
        raise NoMessage("no name in the JSON")
    return of_object(name.strip(), found, moment, True, line)


def of_message(found: dict[str, object], moment: float, line: str) -> Reading:
    """The reading in a message of mosquitto_sub. It cuts a payload at a zero byte: what is left would be another
    value.
    """
    try:
        topic, payload, length = found["topic"], found["payload"] or "", int(str(found["payloadlen"]))
    except (KeyError, ValueError):
        raise NoMessage("no message as mosquitto_sub -F %j prints it") from None
    if not isinstance(topic, str) or not isinstance(payload, str):
        raise NoMessage("no message as mosquitto_sub -F %j prints it")
    whole = payload if len(payload.encode("utf-8", "surrogatepass")) == length else payload + HOLDER
    return of_payload(topic, whole, moment, found.get("retain") != "1", line)
