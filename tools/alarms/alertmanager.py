"""A call-out for who isn't at the screen: the unacknowledged alarms of a plant, for Prometheus' Alertmanager.

    alm_alertmanager --port P --to http://127.0.0.1:9093 [--name plant] [--priorities 1,2] [--slot 10]

Each second it asks the server at a console's slot, by queries alone. An alarm of these priorities that waits for an
acknowledgement is an alert `ProcessAlarm`, with the labels plant, tag, priority and area, and its text as `summary`. It
ends as soon as somebody acknowledges, or the alarm is reset or suppressed. An area in a flood is an alert `AlarmFlood`.

A server that doesn't answer is `AlarmServerDown`. What was unacknowledged by then goes on: nobody is told that it
ended. It ends once the server is back and says so. If another client has the slot, that is `AlarmSlotTaken`. An alert
lasts a day if nothing more is heard of it, so the end of this tool ends none; as it is started again it asks what
Alertmanager has of its plant. All of it is sent again every half minute, as Alertmanager keeps it in memory alone.

Alertmanager decides who is called, when, and how often: routes, groups, repeats, times, mail and webhooks. It is no
alarm system: it has no roster, and nobody acknowledges there.
"""
import json
import time
import urllib.error
import urllib.parse
import urllib.request
from datetime import datetime, timezone
from typing import Any, Iterable, Optional

from .arguments import Parser, add_port, add_slot
from .client import PRIORITIES, Client, Lost, NoAnswer, Plant, Refused
from .ending import Fault, end_of, sayer
from .metrics import at_another_slot

# Seconds between two looks, after which all is sent again, for which an alert lasts unheard of, and to wait for an
# answer.
EVERY, AGAIN, LASTS, PATIENCE = 1.0, 30.0, 86_400.0, 5.0
# Alerts of one request.
MOST = 500
Labels = tuple[tuple[str, str], ...]
say = sayer("alertmanager")


class NoManager(Fault):
    """Alertmanager doesn't answer, or refuses."""


def labels_of(name: str, plant: str, **more: object) -> Labels:
    """The labels of an alert, which say which one it is."""
    return tuple(
        sorted({"alertname": name, "plant": plant, **{key: str(value) for key, value in more.items()}}.items())
    )


def iso(moment: float) -> str:
    return datetime.fromtimestamp(moment, timezone.utc).isoformat()


class Manager:
    """Alertmanager, at an address."""

    def __init__(self, address: str):
        self.address = address.rstrip("/")

    def ask(self, path: str, body: Optional[bytes] = None) -> bytes:
        """What it answers; `NoManager` says why it doesn't."""
        request = urllib.request.Request(self.address + path, body, {"Content-Type": "application/json"})
        try:
            with urllib.request.urlopen(request, timeout=PATIENCE) as answer:
                return answer.read()
        except (OSError, ValueError) as error:
            raise NoManager(f"{self.address}: {getattr(error, 'reason', error)}") from None

    def post(self, alerts: list[dict[str, Any]]) -> None:
        for first in range(0, len(alerts), MOST):
            self.ask("/api/v2/alerts", json.dumps(alerts[first : first + MOST]).encode())

    def known(self, plant: str) -> dict[Labels, float]:
        """The alerts that it has of a plant, and since when, in seconds since 1970."""
        query = urllib.parse.urlencode({"filter": f'plant="{plant}"'})
        try:
            found = json.loads(self.ask(f"/api/v2/alerts?{query}"))
            return {
                tuple(sorted(one["labels"].items())): datetime.fromisoformat(one["startsAt"]).timestamp()
                for one in found
            }
        except (ValueError, KeyError, TypeError, AttributeError):
            raise NoManager(f"{self.address}: it answers as no Alertmanager does") from None


class CallOut:
    """What calls, and what Alertmanager has been sent of it."""

    def __init__(self, plant: Plant, manager: Manager, name: str, priorities: Iterable[int]):
        self.plant, self.manager, self.name, self.priorities = plant, manager, name, tuple(priorities)
        self.client: Optional[Client] = None
        self.since: Optional[dict[Labels, float]] = None
        self.notes: dict[Labels, dict[str, str]] = {}
        self.seen: Optional[set[Labels]] = None
        self.sent_at, self.said = 0.0, ""

    def turn(self) -> None:
        """Looks, and sends what is new."""
        troubles, now = self.look(), time.time()
        try:
            if self.since is None:
                self.since = self.manager.known(self.name)
            self.send(troubles, now)
            if self.said:
                say("Alertmanager answers again")
            self.said = ""
        except NoManager as no:
            if str(no) != self.said:
                say(no, "- trying again")
            self.said = str(no)

    def look(self) -> set[Labels]:
        """Looks at the plant; what keeps from it, as an alert. Then what was seen before goes on."""
        try:
            self.client = self.client or self.plant.connect()
            self.seen = set(self.calling(self.client))
            return set()
        except (Lost, Refused) as lost:
            self.plant.lose()
            self.client = None
            is_taken = isinstance(lost, NoAnswer) and at_another_slot(self.plant)
            trouble = labels_of("AlarmSlotTaken" if is_taken else "AlarmServerDown", self.name, priority=1)
            self.notes[trouble] = {"summary": f"{lost}: alarms are as they were seen last"}
            return {trouble}

    def calling(self, client: Client) -> Iterable[Labels]:
        """The alarms that wait for an acknowledgement, and the areas in a flood."""
        alarms = self.plant.table.alarms
        for priority in self.priorities:
            numbers = client.priority_list(priority).alarms
            for number, state in zip(numbers, client.states(numbers)):
                if state.is_unacknowledged:
                    alarm = alarms[number]
                    labels = labels_of("ProcessAlarm", self.name, tag=alarm.tag, priority=priority, area=alarm.area)
                    self.notes[labels] = {"summary": alarm.text or alarm.tag, "state": state.shown}
                    yield labels
        for area, flood in enumerate(client.floods()):
            if flood.flooded:
                labels = labels_of("AlarmFlood", self.name, area=area)
                self.notes[labels] = {"summary": f"area {area} is in an alarm flood"}
                yield labels

    def send(self, troubles: set[Labels], now: float) -> None:
        """Sends what began and ended since the last time, and at times all of it."""
        since = self.since or {}
        trouble_names = ("AlarmServerDown", "AlarmSlotTaken")
        before = {labels for labels in since if dict(labels)["alertname"] not in trouble_names}
        wanted = troubles | (before if self.seen is None or troubles else self.seen)
        new, ended = wanted - set(since), set(since) - wanted
        is_due = now - self.sent_at >= AGAIN
        alerts = [self.alert(one, since.get(one, now), now + LASTS) for one in (wanted if is_due else new)]
        self.manager.post(alerts + [self.alert(one, since[one], now) for one in ended])
        self.since = {one: since.get(one, now) for one in wanted}
        self.notes = {one: note for one, note in self.notes.items() if one in wanted}
        self.sent_at = now if is_due else self.sent_at

    def alert(self, labels: Labels, starts: float, ends: float) -> dict[str, Any]:
        annotations = self.notes.get(labels, {"summary": dict(labels).get("tag", dict(labels)["alertname"])})
        return {"labels": dict(labels), "annotations": annotations, "startsAt": iso(starts), "endsAt": iso(ends)}


def priorities(text: str) -> list[int]:
    """Priorities with commas between them."""
    found = [int(one) for one in text.split(",")]
    if not found or set(found) - set(PRIORITIES):
        raise ValueError
    return found


def run(call_out: CallOut) -> None:
    """Looks each second, without an end."""
    while True:
        began = time.monotonic()
        call_out.turn()
        time.sleep(max(0.0, began + EVERY - time.monotonic()))


def main() -> None:
    words = Parser("alm_alertmanager", __doc__)
    add_port(words)
    words.add_argument("--to", required=True, metavar="URL", help="Alertmanager, as http://127.0.0.1:9093")
    words.add_argument(
        "--name", default="plant", help="the label `plant` of its alerts; %(default)s where it is left out"
    )
    words.add_argument(
        "--priorities", type=priorities, default=[1, 2], metavar="1,2", help="the priorities that call; 1,2 if left out"
    )
    add_slot(words, 10)
    chosen = words.parse_args()
    if not chosen.to.startswith(("http://", "https://")):
        words.error(f"{chosen.to} isn't the address of an Alertmanager")
    call_out = CallOut(Plant(chosen.port, chosen.slot), Manager(chosen.to), chosen.name, chosen.priorities)
    end_of("alertmanager", lambda: run(call_out))


if __name__ == "__main__":
    main()
