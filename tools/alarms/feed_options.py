"""What a feed is asked to do, and its sources by it."""
import argparse
import socket
import sys
from dataclasses import dataclass
from functools import partial
from typing import Optional

from .arguments import Parser, add_port, add_table
from .connecting import Place
from .details_file import load_details
from .ending import Fault
from .feed_lines import Lines, say
from .feed_parts import parts_of, settings_of
from .feed_process import start_apart
from .inbox import Inbox, LineReader, open_lines
from .mqtt_settings import Mqtt, read_url
from .value_map import ValueMap


@dataclass(frozen=True)
class Options:
    """The options. `poll` is in seconds."""

    place: Optional[Place]
    table: Optional[str]
    values: Optional[ValueMap]
    json: bool
    file: Optional[str]
    mqtt: Optional[Mqtt]
    processes: int
    poll: float
    watch: Optional[str]
    metrics: Optional[int]
    dead: bool
    show: bool


def add_mqtt(words: argparse.ArgumentParser) -> None:
    """The options of a broker."""
    mqtt = words.add_argument_group("MQTT, with --map")
    mqtt.add_argument(
        "--mqtt",
        type=read_url,
        metavar="URL",
        help="a broker, as mqtt://HOST:1883 or mqtts://USER@HOST:8883: the names of the map are topics",
    )
    mqtt.add_argument("--mqtt-password", metavar="FILE", help="a file whose first line is the password")
    mqtt.add_argument("--mqtt-ca", metavar="FILE", help="the authority of the broker's certificate; else the system's")
    mqtt.add_argument("--mqtt-cert", metavar="FILE", help="this client's certificate")
    mqtt.add_argument("--mqtt-key", metavar="FILE", help="and its key")
    mqtt.add_argument(
        "--mqtt-id",
        metavar="NAME",
        help="the client's name at the broker, which keeps its session; else one by machine and plant",
    )
    mqtt.add_argument(
        "--mqtt-processes",
        type=processes,
        default=1,
        metavar="N",
        help="how many processes share the topics, from 1 to 16; %(default)s where it is left out",
    )
    mqtt.add_argument(
        "--mqtt-version", choices=("5", "3"), default="5", help="3 is MQTT 3.1.1; %(default)s where it is left out"
    )


def seconds(text: str) -> float:
    """A number of seconds between two looks at a device."""
    value = float(text)
    if not 0.01 <= value <= 86_400:
        raise argparse.ArgumentTypeError(f"{text} isn't from 0.01 to 86400 seconds")
    return value


def processes(text: str) -> int:
    """How many processes share the topics."""
    if not text.isdecimal() or not 1 <= int(text) <= 16:
        raise argparse.ArgumentTypeError(f"{text} isn't from 1 to 16")
    return int(text)


def page_port(text: str) -> int:
    """The port of a page, or 0."""
    if not text.isdecimal() or int(text) > 65_535:
        raise argparse.ArgumentTypeError(f"{text} isn't a port from 0 to 65535")
    return int(text)


def new_words(page: Optional[str]) -> Parser:
    """The parser of the command line."""
    words = Parser("alm_feed", page)
    add_port(words, required=False)
    add_table(words)
    words.add_argument(
        "--map", metavar="MAP.csv", help="which name is which alarm: the columns are those of value_map.py"
    )
    words.add_argument(
        "--details",
        metavar="FILE",
        help="with --map: what operators are told of each alarm, whose scale counts where the map has none"
        " (docs/TABLE.md)",
    )
    words.add_argument("--json", action="store_true", help="with --map: lines are JSON, and nothing else is taken")
    add_mqtt(words)
    words.add_argument(
        "--poll",
        type=seconds,
        default=1.0,
        metavar="SECONDS",
        help="how often registers are read; %(default)s where it is left out",
    )
    words.add_argument("--watch", metavar="TAG", help="an alarm of the kind discrete that is off while this feed runs")
    words.add_argument(
        "--metrics",
        type=page_port,
        metavar="PORT",
        help="a page of metrics at this port of 127.0.0.1; 0 for any that is free",
    )
    words.add_argument(
        "--dead", action="store_true", help="set the alarm of --watch, or the map's watching alarms, and end"
    )
    words.add_argument(
        "--show",
        action="store_true",
        help="with --map: print what each source says and what would be sent, and send none",
    )
    words.add_argument(
        "file",
        metavar="FILE",
        nargs="?",
        help="the lines; - is standard input, as if it is left out without --mqtt and registers",
    )
    return words


def read_arguments(words: Parser) -> argparse.Namespace:
    """The words of the command line, which go together."""
    chosen = words.parse_args()
    if chosen.port is None and not chosen.show:
        words.error("one of the arguments --port --sockets is required")
    for option in ("details", "json", "mqtt", "show"):
        if getattr(chosen, option) and not chosen.map:
            words.error(f"--{option} goes with --map")
    if bool(chosen.mqtt_cert) != bool(chosen.mqtt_key):
        words.error("--mqtt-cert and --mqtt-key go together")
    return chosen


def load_map(path: str, details: Optional[str]) -> ValueMap:
    """The map of a file, with the scales of a file of details; where both have one and they differ, that is said."""
    scales = {tag: one.scale for tag, one in load_details(details).items()} if details else {}
    values = ValueMap.load(path, scales)
    for line in values.other_scales(scales):
        say(line)
    return values


def read_options(chosen: argparse.Namespace) -> Options:
    """The options, with the files that they name. `Fault` or `OSError` says why one can't be read."""
    values = load_map(chosen.map, chosen.details) if chosen.map else None
    if values and chosen.watch in {row.tag for row in values.all_rows()}:
        raise Fault(f"{chosen.map} has a row for {chosen.watch}, which is to watch the feed")
    if chosen.show:  # beside a feed that runs, which its broker knows by another name
        chosen.mqtt_id = None
    place = "show" if chosen.show else chosen.port
    mqtt = chosen.mqtt and chosen.mqtt.completed(chosen, f"{socket.gethostname()} {place}")
    return Options(
        chosen.port,
        chosen.table,
        values,
        chosen.json,
        chosen.file,
        mqtt,
        chosen.mqtt_processes,
        chosen.poll,
        chosen.watch,
        chosen.metrics,
        chosen.dead,
        chosen.show,
    )


def start_sources(options: Options, inbox: Inbox, lines: Lines) -> None:
    """Starts what says values. A library that isn't there ends the feed, with one line."""
    points = options.values.points if options.values else {}
    if options.mqtt and options.values:  # first: no thread runs beside a fork
        from .feed_mqtt import MqttSource

        sources = [
            partial(MqttSource, settings_of(options.mqtt, number), options.values, topics)
            for number, topics in enumerate(parts_of(options.values, options.processes))
        ]
        start_apart("MQTT", sources, inbox)
    if points:
        from .feed_modbus import start_devices

        start_devices(points, inbox, options.poll)
    if options.file or not (options.mqtt or points):
        file = open_lines(options.file) if options.file and options.file != "-" else sys.stdin.fileno()
        LineReader(file, inbox, lines.reading_of).start()
