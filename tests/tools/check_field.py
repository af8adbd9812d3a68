"""Single ways in which values were once lost or came wrong. tests/tools/field.py runs these checks."""
import contextlib
import datetime
import json
import os
import random
import shutil
import signal
import socket
import subprocess
import time
import urllib.request

from alarms.table_file import Alarm
from fed_plant import HEAD, Plant, ended, published, put
from lib.tools import Yard, await_said, await_true, slowness, start, stop, tool

from alarms.client import Client
from check_mqtt import Broker, publish_all
from lib.places import AT_TOOLS
from lib.program import check


def old_values(yard: Yard, _: int) -> str:
    """By its source's time a value is late, comes behind a newer one, or is ahead; and none of that is an alarm of
    now.
    """
    plant = Plant(yard, "a,TI-1,10,30,XS-1\nb,LI-2,10\n")
    now = datetime.datetime.now(datetime.timezone.utc)
    lines = [
        ("a", "385.5", now - datetime.timedelta(hours=1)),
        ("a", "385.25", now - datetime.timedelta(seconds=5)),
        ("a", "370", now - datetime.timedelta(seconds=9)),
        ("b", "40", now - datetime.timedelta(hours=1)),
        ("b", "41", now + datetime.timedelta(seconds=60)),
    ]
    text = "".join(
        json.dumps({"name": name, "value": value, "quality": "Good", "time": moment.isoformat()}) + "\n"
        for name, value, moment in lines
    )
    more = '{"name": "a", "value": 1, "time": "2026-11-29T08:00:00"}\n'
    more += '{"name": "a", "value": 1, "quality": "BadNoCommunication"}\n{"name": "a", "value": null}\n'
    run = tool("alm_feed", "--port", plant.server.port, "--map", plant.mapped, "--json", text=text + more)
    check(plant.holding()[:2] == [True, True], plant.holding())
    said = [line for line in run.stderr.splitlines() if "XS-1" not in line]
    wanted = [
        "a value that is 360",
        "a value that is older than the one before",
        "seconds ahead of this machine",
        "the time has no zone",
    ]
    check(len(said) == len(wanted) and all(one in line for one, line in zip(wanted, said)), said)
    check(run.returncode == 1 and run.stdout.endswith(", 3 bad lines, 2 late\n"), run.stdout)
    plant.server.end()
    return "old values"


def kept_values(yard: Yard, _: int) -> str:
    """A retained value, and one that the broker kept while the feed was away, is a value and no sign of life: the
    watching alarm comes, and isn't off before.
    """
    plant, broker = Plant(yard, "a,TI-1,10,3,XS-1\nb,LI-2,10\n"), Broker(yard)
    for version in ("5", "3"):
        published(broker, "a", "390", "-r")
        words = ("--mqtt", f"mqtt://127.0.0.1:{broker.port}", "--mqtt-version", version)
        feed = plant.feed(*words)
        plant.becomes("the retained value, and the silence of its source", True, False, True)
        with Client.connect(plant.server.port, 3) as console:
            console.acknowledge(2)
        ended(feed)
        feed = plant.feed(*words)
        time.sleep(4.5)
        with Client.connect(plant.server.port, 3) as console:
            check(console.state(2).shown == "ACKED", "beside a dead source a new feed annunciates its silence again")
        time.sleep(2.5)  # what comes later isn't what the broker kept
        published(broker, "a", "391", "-r")
        plant.becomes("a live value", True, False, False)
        ended(feed)
        time.sleep(0.5)  # its process at the broker has seen that
        published(broker, "b", "40")
        published(broker, "a", "379", "-r")
        feed = plant.feed(*words)
        plant.becomes("what the broker kept, and the silence", False, True, True)
        ended(feed)
        time.sleep(0.5)
        published(broker, "b", "60")
        published(broker, "a", '{"value": 380, "quality": "bad"}', "-r")
        feed = plant.feed(*words)
        plant.becomes("a retained message without a value", False, False, True)
        ended(feed)
    broker.kill()
    plant.server.end()
    return "kept values"


def dropped(yard: Yard, _: int) -> str:
    """What a broker dropped for a client that was behind comes, though no source says it again: by MQTT 3.1.1 a broker
    keeps a thousand messages.
    """
    count = 500
    alarms = [Alarm("high", 20, 1, 0, f"T-{number}") for number in range(count)]
    plant = Plant(yard, "".join(f"plant/{number},T-{number},10\n" for number in range(count)), alarms)
    broker, dice = Broker(yard), random.Random(84)
    last = {f"plant/{number}": "1.4" for number in range(count)}
    publish_all(broker, last.items())
    feed = plant.feed("--mqtt", f"mqtt://127.0.0.1:{broker.port}", "--mqtt-version", "3")
    publish_all(broker, [("plant/0", "2.5")])
    plant.becomes("the first value", True)
    os.killpg(feed.pid, signal.SIGSTOP)
    drawn = [(dice.choice(list(last)), dice.choice(("1.4", "2.5"))) for _ in range(10 * count)]
    publish_all(broker, drawn)
    last.update(drawn)
    os.killpg(feed.pid, signal.SIGCONT)
    plant.becomes("the last values", *(last[f"plant/{number}"] == "2.5" for number in range(count)), patience=10.0)
    ended(feed)
    broker.kill()
    plant.server.end()
    return f"{len(drawn)} messages, most of them dropped by a broker"


def suppressed_first(yard: Yard, _: int) -> str:
    """At the start suppressions go before values, retained and kept ones: nothing that is suppressed is annunciated. So
    it is where several processes share the topics.
    """
    count = 61
    alarms = [Alarm("high", 20, 1, 0, f"T-{number}") for number in range(count)]
    plant = Plant(yard, "".join(f"plant/{number},T-{number},10\n" for number in range(count)), alarms)
    designs = "".join(f"service/{number},T-{number},design\n" for number in range(count))
    plant.mapped = yard.write(
        "designs.csv",
        "name,tag,as,scale\n" + "".join(f"plant/{number},T-{number},,10\n" for number in range(count)) + designs,
    )
    broker = Broker(yard)
    publish_all(
        broker,
        ((f"{kind}/{number}", text) for kind, text in (("plant", "2.5"), ("service", "1")) for number in range(count)),
    )
    for is_kept in (False, True):  # the first time all is retained; then the values are what the broker kept for a feed
        feed = plant.feed("--mqtt", f"mqtt://127.0.0.1:{broker.port}", "--mqtt-processes", 3)
        plant.becomes("the values", *[True] * count)
        with Client.connect(plant.server.port, 3) as console:
            flags = {state.flags for state in console.states(range(count))}
            check(flags == {"D"} and console.flood(0).window == 0, is_kept, flags, console.flood(0))
        ended(feed)
        plant.server.end()
        plant.server = yard.serve(yard.format("fresh.device", yard.path("plant.toml")), plant.server.port)
        publish_all(broker, ((f"plant/{number}", "2.6") for number in range(count)))
    broker.kill()
    plant.server.end()
    return "suppressions first"


def dead_feed(yard: Yard, _: int) -> str:
    """The feed's own alarm is off while it runs, and on once its unit has said that it ended; without one the map's
    watching alarms are.
    """
    plant = Plant(yard, "a,TI-1,10,60,XS-1\n")
    feed = plant.feed("--watch", "XS-9")
    put(feed, "a,1")
    await_true("the feed", lambda: "each source has a value" in plant.said())
    ended(feed)
    run = tool("alm_feed", *plant.words("--watch", "XS-9", "--dead")[2:])
    check(run.returncode == 0 and plant.holding() == [False, False, False, True], run.stderr, plant.holding())
    feed = plant.feed("--watch", "XS-9")
    plant.becomes("a feed that is back", False, False, False, False)
    ended(feed)
    run = tool("alm_feed", *plant.words("--dead")[2:])
    check(run.returncode == 0 and plant.holding() == [False, False, True, False], run.stderr, plant.holding())
    plant.server.end()
    run = tool("alm_feed", *plant.words("--watch", "XS-9", "--dead")[2:])
    check(run.returncode == 1 and run.stderr.count("\n") == 1 and "XS-9 can't be set" in run.stderr, run.stderr)
    return "a dead feed"


def no_orphan(yard: Yard, _: int) -> str:
    """The process of a source ends with its feed, also where there is no broker: it would take the next feed's
    session.
    """
    plant = Plant(yard, "a,TI-1,10\n")
    feed = plant.feed("--mqtt", "mqtt://127.0.0.1:9")
    await_true("a try to connect", lambda: "trying again" in plant.said())
    ended(feed)
    await_true("the end of the source's process", lambda: not is_there(feed.pid), 10.0)
    plant.server.end()
    return "no orphan"


def is_there(group: int) -> bool:
    """Whether a group has a process."""
    try:
        os.killpg(group, 0)
    except ProcessLookupError:
        return False
    return True


def hanging_feed(yard: Yard, _: int) -> str:
    """A feed says to systemd that it is ready and, as long as its loop goes on, that it lives: with a server, without
    one, and not while it hangs.
    """
    plant = Plant(yard, "a,TI-1,10\n")
    with socket.socket(socket.AF_UNIX, socket.SOCK_DGRAM) as one:
        one.bind(yard.path("notify"))
        one.settimeout(20 * slowness())
        feed = plant.feed(NOTIFY_SOCKET=yard.path("notify"), WATCHDOG_USEC="1500000")
        check(one.recv(100) == b"READY=1", "the first word is another")
        for is_served in (True, False):
            moments = [time.monotonic() for _ in range(4) if one.recv(100) == b"WATCHDOG=1"]
            check(len(moments) == 4 and moments[-1] - moments[0] < 4.5 * slowness(), is_served, moments)
            plant.server.end()
        feed.send_signal(signal.SIGSTOP)
        time.sleep(0.2)
        one.setblocking(False)
        with contextlib.suppress(BlockingIOError):
            while one.recv(100):
                pass
        time.sleep(1.5)
        with contextlib.suppress(BlockingIOError):
            check(not one.recv(100), "a feed that hangs says that it lives")
    ended(feed)
    return "a hanging feed"


def delays(yard: Yard, _: int) -> str:
    """A value counts once it has held for the delay: not one that is back before, and each way by its own delay."""
    plant = Plant(yard, "a,TI-1,10,,,2,1\nb,LI-2,10\n")
    feed = plant.feed()
    put(feed, "a,370", "b,60")
    put(feed, "a,390", "b,40")
    plant.becomes("the alarm without a delay", False, True)
    time.sleep(0.7)
    put(feed, "a,370", "b,60")
    plant.becomes("its end", False, False)
    put(feed, "a,385")
    began = time.monotonic()
    time.sleep(1.0)
    put(feed, "a,395")
    plant.becomes("the alarm with a delay", True, False)
    came = time.monotonic() - began
    check(1.9 < came < 2.6 * slowness(), "an alarm with a delay of 2 s came after", came)
    put(feed, "a,370")
    began = time.monotonic()
    plant.becomes("its return", False, False)
    went = time.monotonic() - began
    check(0.9 < went < 1.6 * slowness(), "an alarm with a delay of 1 s went after", went)
    with Client.connect(plant.server.port, 3) as console:
        check(console.action_count() == 4, "what was back before its delay made an action:", console.action_count())
    ended(feed)
    plant.server.end()
    return "delays"


def counted(yard: Yard, _: int) -> str:
    """What is late, bad, unmapped or rounded is on the page of metrics, and a tool of Prometheus takes it."""
    plant = Plant(yard, "a,TI-1,10,60,XS-1\nb,LI-2,\n")
    feed = start("alm_feed", "--port", plant.server.port, "--map", plant.mapped, "--metrics", "0")
    address = await_said(feed, "/metrics").split()[-1]
    feed.stdin.write('a,bad\na,390\nb,60.5\nb,60.25\nc,1\n{"name": "a", "value": 1, "time": 1}\n')
    feed.stdin.flush()
    plant.becomes("the values", True)
    wanted = {
        "connected": "1",
        "sources_watched": "1",
        "sources_silent": "0",
        "readings_total": "6",
        "bad_total": "2",
        "unmapped_total": "1",
        "late_total": "1",
        "rounded_total": "2",
        "dropped_total": "0",
        "changed_total": "2",
    }
    with urllib.request.urlopen(address, timeout=30) as page:
        text = page.read().decode()
    for name, value in wanted.items():
        check(f"\nalarms_feed_{name} {value}\n" in text, name, value, "isn't in", text)
    stop(feed)
    plant.server.end()
    if not shutil.which("promtool"):
        return "counters, no promtool"
    run = subprocess.run(["promtool", "check", "metrics"], input=text, capture_output=True, text=True, timeout=60)
    check(run.returncode == 0 and not run.stdout + run.stderr, run.stdout, run.stderr)
    return "counters"


def without_library(yard: Yard, _: int) -> str:
    """Where a library isn't there the feed ends with one line and status 1; without what needs it, it goes on."""
    plant = Plant(yard, "a,TI-1,10\n")
    hidden = yard.path("hidden")
    for name in ("paho", "pymodbus"):
        os.makedirs(os.path.join(hidden, name))
        yard.write(f"hidden/{name}/__init__.py", "raise ImportError\n")
    path = {"PYTHONPATH": f"{hidden}:{AT_TOOLS['PYTHONPATH']}"}
    for words, rows, why in (
        (("--mqtt", "mqtt://127.0.0.1"), "", "python3-paho-mqtt"),
        ((), "b,LI-2,,,,,,127.0.0.1,40001,,,\n", "python3-pymodbus"),
    ):
        plant.mapped = yard.write("map.csv", HEAD + "a,TI-1,10\n" + rows)
        run = subprocess.run(
            plant.words(*words), env={**AT_TOOLS, **path}, capture_output=True, text=True, timeout=60, input=""
        )
        check(
            run.returncode == 1
            and run.stderr.count("\n") == 1
            and why in run.stderr
            and run.stderr.startswith("feed: "),
            run.stderr,
        )
    plant.mapped = yard.write("map.csv", HEAD + "a,TI-1,10\n")
    run = subprocess.run(
        plant.words(), env={**AT_TOOLS, **path}, capture_output=True, text=True, timeout=60, input="a,390\n"
    )
    check(run.returncode == 0 and plant.holding()[0], run.stderr)
    plant.server.end()
    return "no library"


def named_pipe(yard: Yard, _: int) -> str:
    """The writers of a named pipe come and go, and the feed has the server also before the first of them."""
    plant = Plant(yard, "a,TI-1,10,60,XS-1\n")
    pipe = yard.path("pipe")
    os.mkfifo(pipe)
    feed = plant.feed("--watch", "XS-9", pipe)
    for text, holds in (("390", True), ("370", False)):
        with open(pipe, "w", encoding="ascii") as one:
            one.write(f"a,{text}\n")
        plant.becomes(f"the value {text} of the pipe", holds, False, False, False)
    check(feed.poll() is None, plant.said())
    ended(feed)
    plant.server.end()
    return "a named pipe"


CHECKS = {
    one.__name__: one
    for one in (
        old_values,
        kept_values,
        dropped,
        suppressed_first,
        dead_feed,
        no_orphan,
        hanging_feed,
        delays,
        counted,
        without_library,
        named_pipe,
    )
}
