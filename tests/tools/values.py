#!/usr/bin/env python3
"""alm_feed with a map, and the recipes of docs/FIELD.md, against the built program.

    tests/tools/values.py PROGRAM [--short]

Scales, bad values, silence, suppression, other setpoints and wrong maps; each recipe of the page as it stands there,
MQTT with a real mosquitto as Debian configures it. Beside that 200 sources publish through a broker for a minute,
10,000 values a second, while broker, feed and server are killed: at the end the plant's conditions are those of the
last values. With --short it is seven seconds. Without mosquitto what wants it is left out, and that is said. The checks
run beside each other.
"""
import collections
import contextlib
import io
import os
import shutil
import subprocess
import sys
import threading
import time
from functools import partial
from typing import Iterable, Iterator

from lib.tools import PATIENCE, Yard, await_true, end_all, ended, slowness, start, started, stop, tool

from alarms.client import Client, Lost, Refusal, Refused
from check_map import (
    MAP,
    first_of_them,
    fractions,
    judged_again,
    messages,
    no_values,
    rows_left_out,
    scales,
    small,
    write,
)
from check_mqtt import RETAINED, Fed, conditions, own_topic, recipe, retained, through_a_broker, ways, while_away
from alarms.feed import Feed
from alarms.feed_alive import Alive
from alarms.feed_lines import Input, Lines
from history import run_checks
from lib.program import Wrong, begin, check, finish, free_ports

WRONG_MAPS = {
    "": "the columns are",
    "name,tags\na,b\n": "the columns are name, tags",
    "name,tag\na\n": "line 2: a row has a name and a tag",
    "name,tag,scale\na,TI-1,x\n": "line 2: no number",
    "name,tag,scale\na,TI-1,inf\n": "line 2: scale is Infinity",
    "name,tag,as\na,TI-1,alarm\n": "line 2: alarm is neither value nor design",
    "name,tag,silent\na,TI-1,5\n": "line 2: silent and watch go together",
    "name,tag,silent,watch\na,TI-1,0,XS-1\n": "line 2: silent is 0",
    "name,tag\na,TI-1\nb,TI-1\n": "two rows for TI-1",
    "name,tag\na,TI-1,1\n": "line 2: more cells than columns",
    "name,tag,scale\na,TI-1,1e9999999\n": "line 2: scale is 1E+9999999",
    "name,tag\na,TI-9\n": "the plant has no tag TI-9, which the map has for a",
    "name,tag\n": "the map has no row",
}


def silence(yard: Yard) -> str:
    """A source without a value is an alarm: once it is bad, or was silent for so long; and none once each has a
    value.
    """
    server = yard.serve(small(yard, "silence"))
    feed = start("alm_feed", "--port", server.port, "--map", yard.write("silence.csv", MAP))
    write(feed, "t/1,1\n")
    await_true("the silence of p/2", lambda: conditions(server.port, 4)[3])
    write(feed, "p/2,1\nt/1,2\n")
    await_true("the end of the silence", lambda: not conditions(server.port, 4)[3])
    write(feed, "t/1,bad\n")
    await_true("the bad value", lambda: conditions(server.port, 4)[3])
    write(feed, "t/1,3\n")
    await_true("the good value", lambda: not conditions(server.port, 4)[3])
    await_true("silence again", lambda: conditions(server.port, 4)[3])
    stop(feed)
    server.end()
    return "silence"


def sent_again(yard: Yard) -> str:
    """After a restore the last values are sent again, though no source says them twice."""
    device = small(yard, "again")
    fresh = shutil.copyfile(device, yard.path("fresh.device"))
    server = yard.serve(device)
    feed = start(
        "alm_feed", "--port", server.port, "--map", yard.write("again.csv", MAP.replace(",2,XS-1", ",60,XS-1"))
    )
    write(feed, "t/1,39\np/2,250\np/2/service,on\n")
    await_true("the values", lambda: conditions(server.port, 4) == [True, False, True, False])
    server.end()
    os.replace(fresh, device)
    server = yard.serve(device, server.port)
    await_true("the values of before", lambda: conditions(server.port, 4) == [True, False, True, False])
    stop(feed)
    server.end()
    return "sent again"


class Refusing:
    """A client whose server refuses each request by the same number."""

    def __init__(self, refusal: Refusal):
        self.refusal = refusal

    def ask_all(self, requests: Iterable[str]) -> Iterator[Refused]:
        return (Refused(request, self.refusal) for request in requests)


def kept(_yard: Yard) -> str:
    """A value that was refused since the server stops or has no memory is sent again; one that is refused for itself
    isn't.
    """
    for refusal, is_kept in (
        (Refusal.STOPPED, True),
        (Refusal.OUT_OF_MEMORY, True),
        (Refusal.NO_CHANGE, True),
        (Refusal.NO_SUCH_ALARM, False),
    ):
        feed, one = Feed.__new__(Feed), Input("T", 1)
        feed.lines, feed.client, feed.latest, feed.alive = Lines(None), Refusing(refusal), {one.key: one}, Alive()
        feed.lines.numbers = {"T": 0}
        with contextlib.redirect_stderr(io.StringIO()):
            feed.ask([one], collections.Counter())
        check(
            (one.key in feed.latest) == is_kept,
            "a value that is refused by",
            refusal,
            "is kept" if feed.latest else "is dropped",
        )
    return "refused values"


def wrong_maps(yard: Yard) -> str:
    """A wrong map ends the feed with one line; so does a plant without its tags."""
    server = yard.serve(small(yard, "wrong"))
    for text, why in WRONG_MAPS.items():
        run = tool("alm_feed", "--port", server.port, "--map", yard.write("wrong.csv", text), text="a,1\n")
        check(
            run.returncode == 1
            and run.stderr.count("\n") == 1
            and why in run.stderr
            and run.stderr.startswith("feed: "),
            text,
            run.stderr,
        )
    run = tool("alm_feed", "--port", server.port, "--map", yard.path("none.csv"), text="")
    check(
        run.returncode == 1 and run.stderr == f"feed: {yard.path('none.csv')}: No such file or directory\n", run.stderr
    )
    server.end()
    return f"{len(WRONG_MAPS) + 1} wrong maps"


def reads_on(yard: Yard, count: int) -> str:
    """While there is no server a pipe is read on, and of each name the last line counts. With one each line counts, and
    from a file always.
    """
    device = small(yard, "reads")
    server = yard.serve(device)
    feed = start("alm_feed", "--port", server.port)
    write(feed, "TI-1,3900\n")
    await_true("the first value", lambda: conditions(server.port, 1)[0])
    server.end()
    lines = (
        "".join(f"TI-1,{3900 * (number % 2)}\nPI-2,design,{('on', 'off')[number % 2]}\n" for number in range(count))
        + "PI-2,250\nPI-2,design,on\n"
    )
    writer = threading.Thread(target=write, args=(feed, lines), daemon=True)
    writer.start()
    writer.join(PATIENCE)
    check(not writer.is_alive(), "the feed doesn't read on while there is no server")
    time.sleep(slowness())  # and has read what is left in the pipe
    server = yard.serve(device, server.port)
    await_true("the last values", lambda: conditions(server.port, 3) == [True, False, True])
    with Client.connect(server.port, 3) as console:
        check(
            console.action_count() == 3 and console.state(2).shown == "DSUPR", console.action_count(), console.state(2)
        )
    printed, said = feed.communicate(timeout=PATIENCE)
    check(feed.returncode == 0 and "of each name the last counts" in said, printed, said)
    server.end()
    return f"{2 * count} lines without a server, {each_counts(yard, count)}"


def each_counts(yard: Yard, count: int) -> str:
    """With a server each line of a pipe counts, however fast they come; and each line of a file, also without one."""
    values = yard.write("each", "".join(f"TI-1,{3900 * (number % 2)}\n" for number in range(count)))
    for is_pipe in (True, False):
        device, port = small(yard, f"each{is_pipe}"), free_ports()
        server = yard.serve(device, port) if is_pipe else None
        source = started(subprocess.Popen(["cat", values], stdout=subprocess.PIPE))
        feed = start("alm_feed", "--port", port, *(() if is_pipe else (values,)), stdin=source.stdout)
        time.sleep(0 if is_pipe else 1.5)
        server = server or yard.serve(device, port)
        status, printed, said = ended(feed)
        check(status == 0 and printed.startswith(f"{count - 1} changed a condition, 1 didn't"), printed, said)
        server.end()
    return f"{count} with one"


def files_and_commands(yard: Yard) -> str:
    """The recipes of a file that grows and of a command each second."""
    server = yard.serve(small(yard, "files"))
    values, mapped = yard.write("values.csv", "t/1,50\n"), yard.write("files.csv", MAP + "load,XS-1,,100,,,\n")
    tail = Fed(recipe("tail -n", server.port, mapped).replace("/var/log/values.csv", values), yard)
    await_true("the first line of the file", lambda: conditions(server.port, 4)[0])
    with open(values, "a", encoding="utf-8") as file:
        file.write("t/1,1\np/2,250\n")
    await_true("the lines that come", lambda: conditions(server.port, 4)[:3] == [False, True, True])
    tail.end()
    loads = Fed(recipe("while sleep", server.port, mapped).replace("$(cut -d' ' -f1 /proc/loadavg)", "0.01"), yard)
    await_true("the command's value", lambda: conditions(server.port, 4)[3])
    loads.end()
    server.end()
    return "files, commands"


def all_checks(pace: int, seconds: float) -> dict:
    """Each check by its name. Those that take longest come first."""
    plain = (
        judged_again,
        silence,
        sent_again,
        kept,
        rows_left_out,
        files_and_commands,
        scales,
        no_values,
        messages,
        first_of_them,
        fractions,
        wrong_maps,
    )
    brokers: dict = {"ways": lambda _yard, _: "no mosquitto: MQTT left out"} if not ways() else {}
    for way in ways():
        brokers |= {
            f"through_a_broker{way}": partial(through_a_broker, way=way, pace=pace, seconds=seconds),
            f"while_away{way}": partial(while_away, way=way, messages=2 * pace),
            f"retained{way}": partial(retained, way=way, count=max(RETAINED, pace // 2)),
            f"own_topic{way}": partial(own_topic, way=way),
        }
    brokers = {name: lambda yard, _, one=one: one(yard) for name, one in brokers.items()} if ways() else brokers
    return {
        **brokers,
        "reads_on": lambda yard, _: reads_on(yard, 5 * pace),
        **{one.__name__: lambda yard, _, one=one: one(yard) for one in plain},
    }


def main() -> None:
    program, (pace, seconds), folder = begin("values", sys.argv, (10_000, 60.0), (2_000, 7.0))
    checks, began = all_checks(pace, seconds), time.monotonic()
    try:
        said = run_checks(program, folder, checks, list(checks), pace)
    except (Wrong, Lost, Refused, OSError, subprocess.TimeoutExpired) as wrong:
        sys.exit(f"values: {wrong}; devices are in {folder}")
    finally:
        end_all()
    finish("values", folder, f"{'; '.join(said)}; none wrong, {time.monotonic() - began:.0f} s")


if __name__ == "__main__":
    main()
