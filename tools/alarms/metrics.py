"""An exporter of what a server shows, in the text format that Prometheus reads.

    alm_metrics --port P [--listen 9464] [--slot 15] [--table TABLE.toml]

It listens on loopback alone, at http://127.0.0.1:9464/metrics. Each time that it is read it asks the server at a
console's slot, by queries alone, and lets the slot go. Where the server doesn't answer, `alarms_up` is 0 and nothing
else of the plant is there. Where it answers at another slot, another client has this one: then `alarms_up` is 1,
`alarms_slot_taken` too, and of the plant is there what one query shows.

There are counters too, of annunciations and acknowledgements by priority: those since the exporter began. They go on
by SINCE. `alarms_uncounted_actions_total` counts what the server no longer remembered by then. What the device's file
alone shows, as how full the journal is, `alm_check DEVICE --metrics` prints.

With --table it reads the table file each time, and ends with status 1 where the plant isn't that file's, or is on
another device than before.
"""
import argparse
import collections
import http.server
import threading
import time
from typing import Iterable, Iterator, Optional

from .client import CONSOLES, PRIORITIES, Client, Lost, NoAnswer, Overview, OtherPlant, Plant, Refused
from .arguments import add_port, add_slot, add_table, listen_port, new_parser
from .connecting import HOST
from .ending import end_of, sayer
from .table_file import NoTable
from .metric_lines import metric
from .metrics_counts import Tally

# Seconds after which a client that says nothing is left.
SILENCE = 10
# Seconds to wait at each other slot for a query's answer: all of them take less than the ten seconds that Prometheus
# waits for a page.
BRIEFLY = 0.1
STATES = ("UNACK", "ACKED", "RTNUN", "LATUN", "LATAK")

say = sayer("metrics")


def annunciated(client: Client) -> dict[str, float]:
    """How many alarms are annunciated, by priority and state."""
    counts: collections.Counter[str] = collections.Counter()
    for priority in PRIORITIES:
        counts.update({f'{{priority="{priority}",state="{state}"}}': 0 for state in STATES})
        for state in client.states(client.priority_list(priority).alarms):
            if state.shown in STATES:
                counts[f'{{priority="{priority}",state="{state.shown}"}}'] += 1
    return dict(counts)


def by_area(values: Iterable[int]) -> dict[str, float]:
    """The samples of the areas."""
    return {f'{{area="{area}"}}': value for area, value in enumerate(values)}


def shown(client: Client) -> Iterator[str]:
    """What the plant shows. Between two queries it may go on."""
    began = time.perf_counter()
    plant = client.plant()
    yield from of_query(plant, time.perf_counter() - began)
    yield from metric("alarms_annunciated", "gauge", "Annunciated alarms by priority and state.", annunciated(client))
    yield from metric("alarms_shelved", "gauge", "Shelved alarms.", {"": len(client.shelved())})
    yield from metric(
        "alarms_stale", "gauge", "Alarms annunciated for a day or more.", {"": len(client.stale().alarms)}
    )
    yield from metric(
        "alarms_chattering",
        "gauge",
        "Alarms with three annunciations in a minute.",
        {"": len(client.chattering().alarms)},
    )
    floods = client.floods()
    yield from metric(
        "alarms_area_annunciations",
        "gauge",
        "Annunciations in the last 600 seconds.",
        by_area(flood.window for flood in floods),
    )
    yield from metric(
        "alarms_area_flooded", "gauge", "Whether the area is flooded.", by_area(int(flood.flooded) for flood in floods)
    )


def of_query(plant: Overview, seconds: float) -> Iterator[str]:
    """What one query shows."""
    yield from metric("alarms_query_seconds", "gauge", "Time of a query's round trip.", {"": seconds})
    yield from metric("alarms_actions_total", "counter", "Accepted actions.", {"": plant.count})
    yield from metric("alarms_moment_seconds", "gauge", "The plant's moment.", {"": plant.moment})
    yield from metric("alarms_configured", "gauge", "Alarms of the plant.", {"": plant.alarms})


def at_another_slot(plant: Plant) -> Optional[tuple[Overview, float]]:
    """What a server shows at the first console's slot that nobody has, and how long that took in seconds; none if it
    doesn't answer at any.
    """
    for slot in reversed(CONSOLES):
        try:
            if slot != plant.slot:
                with Client.connect(plant.place, slot, BRIEFLY) as client:
                    began = time.perf_counter()
                    return client.plant(), time.perf_counter() - began
        except NoAnswer:
            pass
        except Lost:
            return None
    return None


class Exporter(http.server.ThreadingHTTPServer):
    """Answers /metrics. Each client has a thread, and the plant is asked for one after the other."""

    def __init__(self, listen: int, plant: Plant):
        super().__init__((HOST, listen), Handler)
        self.plant, self.tally = plant, Tally()
        self.asking = threading.Lock()
        self.moment, self.moved = -1, 0.0
        self.fault: Optional[Exception] = None

    def page(self) -> str:
        """All metrics, as they are at the moment."""
        with self.asking:
            lines, up, taken = self.plant_lines()
            lines += self.counters()
        head = [
            *metric("alarms_up", "gauge", "Whether the server answers.", {"": up}),
            *metric(
                "alarms_slot_taken",
                "gauge",
                "Whether another client has the slot at which metrics are asked.",
                {"": taken},
            ),
        ]
        return "\n".join([*head, *lines]) + "\n"

    def plant_lines(self) -> tuple[list[str], int, int]:
        """What the plant shows, whether the server answers, and whether another client has the slot."""
        try:
            with self.plant.connect() as client:
                plant = client.plant()
                self.tally.look(client, plant.count)
                return [*shown(client), *self.still(plant.moment)], 1, 0
        except NoAnswer:
            found = at_another_slot(self.plant)
            return ([*of_query(*found), *self.still(found[0].moment)], 1, 1) if found else ([], 0, 0)
        except (Lost, Refused):
            return [], 0, 0

    def counters(self) -> Iterator[str]:
        """What was counted so far."""
        for name, page, samples in self.tally.samples():
            yield from metric(name, "counter", page, samples)

    def still(self, moment: int) -> Iterator[str]:
        """For how long the plant's moment hasn't been seen to move: no clock runs, or the server can't store."""
        if moment != self.moment:
            self.moment, self.moved = moment, time.monotonic()
        yield from metric(
            "alarms_clock_still_seconds",
            "gauge",
            "Time since the plant's moment was seen to move.",
            {"": time.monotonic() - self.moved},
        )

    def stop(self, fault: Exception) -> None:
        """Ends the exporter, since what it would say is of another plant."""
        self.fault = fault
        self.shutdown()


class Handler(http.server.BaseHTTPRequestHandler):
    """A client of the exporter."""

    server: Exporter
    timeout = SILENCE

    def do_GET(self) -> None:
        if self.path != "/metrics":
            self.send_error(404)
            return
        try:
            body = self.server.page().encode("ascii")
        except (OtherPlant, NoTable) as fault:
            self.send_error(503)
            self.server.stop(fault)
            return
        self.send_response(200)
        self.send_header("Content-Type", "text/plain; version=0.0.4; charset=utf-8")
        self.send_header("Content-Length", str(len(body)))
        self.end_headers()
        self.wfile.write(body)

    def log_message(self, *_: object) -> None:
        pass


def show(chosen: argparse.Namespace) -> None:
    """Shows a plant until it is ended, or until the plant isn't the table's."""
    exporter = Exporter(chosen.listen, Plant(chosen.port, chosen.slot, chosen.table, names=False))
    say(f"http://{HOST}:{exporter.server_port}/metrics")
    exporter.serve_forever()
    if exporter.fault:
        raise exporter.fault


def main() -> None:
    words = new_parser(__doc__)
    add_port(words)
    words.add_argument(
        "--listen",
        type=listen_port,
        default=9464,
        metavar="PORT",
        help="the port of this exporter, on loopback; 0 for any that is free",
    )
    add_slot(words, 15)
    words.add_argument("--device", help=argparse.SUPPRESS)
    add_table(words)
    chosen = words.parse_args()
    if chosen.device is not None:
        words.error("metrics of a device's file are printed by alm_check DEVICE --metrics, once each time")
    end_of("metrics", lambda: show(chosen), interrupted=0)


if __name__ == "__main__":
    main()
