"""What alm_feed makes of a map and of its lines. tests/tools/values.py runs these checks."""
import os
import subprocess
from decimal import Decimal

from lib.tools import Yard, await_true, start, stop, tool, toml

from alarms.client import Client
from check_mqtt import conditions
from lib.program import check
from lib.server import Server
from alarms.table_file import Alarm, Table, device_size
from alarms.value_map import Row

MAP = """name,tag,as,scale,bad,silent,watch
t/1,TI-1,,100,-9999|bad,2,XS-1
t/1,TI-1L,,100,-9999|bad,,
p/2,PI-2,,,,2,XS-1
p/2/service,PI-2,design,,,,
"""
ALARMS = [
    Alarm("high", 3800, 1, 0, "TI-1", 10),
    Alarm("low", 500, 2, 0, "TI-1L", 10),
    Alarm("high", 210, 2, 0, "PI-2", 5),
    Alarm("discrete", 1, 1, 0, "XS-1"),
]


def small(yard: Yard, name: str) -> str:
    """A device with the alarms of MAP."""
    return yard.format(f"{name}.device", yard.write(f"{name}.toml", toml(Table(device_size(4, 1), 1, ALARMS))))


def write(process: subprocess.Popen, lines: str) -> None:
    process.stdin.write(lines)
    process.stdin.flush()


def scales(yard: Yard) -> str:
    """Values are scaled and rounded, one name feeds two alarms, and what is no value changes nothing and is said
    once.
    """
    server = yard.serve(small(yard, "scales"))
    mapped = yard.write("scales.csv", MAP)
    lines = "t/1,38.004\nt/1,4.999\nt/1,bad\nt/1,-9999\nt/1,nan\nt/1,warm\nt/1,\nt/1,1e20\nt/9,1\nt/1,38.005\n"
    lines += "p/2,210.5\np/2,210.5\np/2/service,ON\np/2/service,2\n"
    run = tool("alm_feed", "--port", server.port, "--map", mapped, text=lines)
    check(conditions(server.port, 4) == [True, False, True, False], conditions(server.port, 4))
    with Client.connect(server.port, 3) as console:
        check(
            [console.state(alarm).shown for alarm in range(3)] == ["UNACK", "RTNUN", "DSUPR"], console.states(range(3))
        )
        changed = console.action_count()
    server.end()
    said = run.stderr.splitlines()
    wanted = [
        "feed: t/1,bad: a bad value",
        "feed: t/9,1: the map has no such name",
        "feed: PI-2: 210.5 goes by a scale of 1, rounded to 210: is the setpoint in that unit?",
        "feed: p/2/service,2: neither on nor off",
    ]
    check([line for line in said if "XS-1" not in line] == wanted, said)
    check(run.returncode == 1 and run.stdout.endswith(" 8 bad lines\n"), run.stdout)
    check(changed == 7, "the plant took", changed, "actions")
    return "scales"


# Texts that are no value where `bad` is -9999, and why.
NO_VALUES = {
    "-9999.0": "a bad value",
    "-9999.00": "a bad value",
    "-9.999e3": "a bad value",
    "-09999": "a bad value",
    "1e9999999": "out of the limits of a value",
    "1e99999999999999999999": "out of the limits of a value",
    "1" * 5000: "out of the limits of a value",
    "1_0": "no number",
    "\u0663\u0667\u0660": "no number",
    "inf": "no number",
    "-Infinity": "no number",
    "nan": "no number",
    "sNaN": "no number",
    "1,5": "no number",
    "": "a bad value",
    "0x10": "no number",
    "1e": "no number",
    ".": "no number",
}
# Numbers, and what they are by a scale of 100.
NUMBERS = {
    "38.01": 3801,
    "+38.02": 3802,
    "3.803e1": 3803,
    "0038.04": 3804,
    "38.": 3800,
    ".5": 50,
    "-1E-2": -1,
    "0e9999999": 0,
    "1e-9999999": 0,
}


def no_values(yard: Yard) -> str:
    """A text that is no value is said to be one of its name, changes nothing, and makes its source one without a value;
    a bad number by whatever digits.
    """
    server = yard.serve(small(yard, "bad"))
    mapped = yard.write("bad.csv", MAP.replace(",2,XS-1", ",60,XS-1"))
    lines = "p/2,1\n" + "".join(f"t/1,39\nt/1,{text}\n" for text in NO_VALUES)
    run = tool("alm_feed", "--port", server.port, "--map", mapped, text=lines)
    said = [line for line in run.stderr.splitlines() if "XS-1" not in line]
    check(
        len(said) == len(NO_VALUES) and all(line.endswith(f": {why}") for line, why in zip(said, NO_VALUES.values())),
        said,
    )
    check(run.returncode == 1 and run.stdout.endswith(f" {len(NO_VALUES)} bad lines\n"), run.stdout, run.stderr)
    check(conditions(server.port, 4) == [True, False, False, True], "conditions", conditions(server.port, 4))
    server.end()
    for text, value in NUMBERS.items():
        check(
            Row("t/1", "TI-1", False, Decimal(100), frozenset(), frozenset(), None, None).read(text) == value,
            text,
            "isn't",
            value,
        )
    return f"{len(NO_VALUES)} texts that are no values"


def messages(yard: Yard) -> str:
    """A message is read with its map beside lines; with --json no line is, and --json wants a map."""
    mapped = yard.write("json.csv", "name,tag,scale\na b,TI-1,100\nc,PI-2,\n{d},XS-1,\n")
    message = '{"tst":"x","topic":"%s","qos":1,"retain":0,"payloadlen":%d,"payload":%s}\n'
    lines = (
        message % ("a b", 2, '"39"')
        + "c,250\n{d},1\n"
        + message % ("a b ", 1, '"1"')
        + message % ("c", 3, '"1"')
        + message % ("c", 0, "null")
    )
    for words, wanted, bad in (((), [True, False, True, True], 3), (("--json",), [True, False, False, False], 4)):
        server = yard.serve(small(yard, f"json{len(words)}"))
        run = tool("alm_feed", "--port", server.port, "--map", mapped, *words, text=lines)
        check(
            conditions(server.port, 4) == wanted and run.stdout.endswith(f" {bad + len(words)} bad lines\n"),
            words,
            conditions(server.port, 4),
            run.stdout,
            run.stderr,
        )
        server.end()
    run = tool("alm_feed", "--port", server.port, "--json", text=lines)
    check(run.returncode == 2 and "--json goes with --map" in run.stderr, run.stderr)
    return "messages"


def judged_again(yard: Yard) -> str:
    """Another setpoint is held against the value that is there, by a map and by tags, though the source says nothing
    more.
    """
    servers = [yard.serve(small(yard, "setpoint")), yard.serve(small(yard, "setpoint2"))]
    feeds = [
        start(
            "alm_feed",
            "--port",
            servers[0].port,
            "--map",
            yard.write("setpoint.csv", MAP.replace(",2,XS-1", ",60,XS-1")),
        ),
        start("alm_feed", "--port", servers[1].port),
    ]
    write(feeds[0], "t/1,37\np/2/service,on\n")
    write(feeds[1], "TI-1,3700\nTI-1L,600\nPI-2,design,on\n")
    await_true("the suppression", lambda: all(Client.connect(one.port, 4).state(2).flags == "D" for one in servers))
    for server in servers:
        with Client.connect(server.port, 5) as console:
            console.setpoint(0, 3600)
            before = console.action_count()
        await_true("the value above another setpoint", lambda: conditions(server.port, 1)[0], 15.0)
        with Client.connect(server.port, 5) as console:
            check(
                console.action_count() == before + 1 and console.state(2).flags == "D",
                console.action_count(),
                before,
                console.state(2),
            )
    for feed in feeds:
        check(feed.poll() is None, "a feed ended", stop(feed))
        check(stop(feed)[1] == "", "a feed said something")
    for server in servers:
        server.end()
    return "another setpoint"


def rows_left_out(yard: Yard) -> str:
    """A row whose alarm the plant hasn't is left out, as is a watch, once said; the others go on. A table that has it
    again brings it back, with the last value that its source has said meanwhile.
    """
    table = Table(device_size(3, 1), 1, [ALARMS[0], ALARMS[2], ALARMS[3]])
    both, device = small(yard, "whole"), yard.format("left.device", yard.write("left.toml", toml(table)))
    server = yard.serve(device)
    mapped = "name,tag,scale,silent,watch\na,TI-1,100,60,XS-9\nb,TI-1L,,60,XS-1\nc,PI-2,,60,TI-1\nd,XS-1,,,\n"
    feed = start("alm_feed", "--port", server.port, "--map", yard.write("left.csv", mapped))
    write(feed, "a,39\nb,100\nb,1\nc,250\n")
    await_true("the rows that are there", lambda: conditions(server.port, 3) == [True, True, False])
    server.end()
    os.replace(both, device)
    server = yard.serve(device, server.port)
    await_true("the row that is there again", lambda: conditions(server.port, 4)[:3] == [True, True, True])
    said = [line for line in stop(feed)[1].splitlines() if "row" in line or "watch" in line]
    wanted = [
        "XS-9 is no tag of the plant, so a isn't watched",
        "the plant has no tag TI-1L, which the map has for b: that row is left out",
        "TI-1 isn't of the kind discrete, so c isn't watched",
    ]
    check(said == [f"feed: {line}" for line in wanted], said)
    server.end()
    return "rows left out"


def first_of_them(yard: Yard) -> str:
    """Of bad lines the first of each name is reported, of names that nobody knows a hundred; and each is counted."""
    server = yard.serve(small(yard, "first"))
    mapped = yard.write("first.csv", "name,tag\na,TI-1\nb,PI-2\n")
    lines = (
        "".join(f"u,{number}\na,x{number}\nno comma\nv{number},1\n" for number in range(1000))
        + "b,\x1b[2J\u2028feed: all is well\na,1\na,y\n"
    )
    for words in (("--map", mapped), ()):
        run = tool(
            "alm_feed",
            "--port",
            server.port,
            *words,
            text=lines if words else lines.replace("a,", "TI-1,").replace("b,", "PI-2,"),
        )
        said = run.stderr.splitlines()
        check(run.stdout.endswith(" 4002 bad lines\n") and len(said) == 100 + 4, run.stdout, len(said), said[-5:])
        check(
            "100 unknown names" in run.stderr
            and all(one.startswith("feed: ") for one in said)
            and "\x1b" not in run.stderr,
            said[-5:],
        )
    server.end()
    return "the first of bad lines"


def fractions(yard: Yard) -> str:
    """A value with a fraction that goes by a scale of 1 is warned of once; no other is."""
    server = yard.serve(small(yard, "fraction"))
    mapped = yard.write("fraction.csv", "name,tag,scale\na,TI-1,\nb,TI-1L,10\nc,PI-2,1\n")
    run = tool(
        "alm_feed", "--port", server.port, "--map", mapped, text="a,38\nb,38.55\nc,210.0\na,401.5\na,402.5\nc,1e2\n"
    )
    check(
        run.returncode == 0
        and run.stderr == "feed: TI-1: 401.5 goes by a scale of 1, rounded to 402: is the setpoint in that unit?\n",
        run.stderr,
    )
    goes_by_details(yard, server)
    server.end()
    return "fractions"


def goes_by_details(yard: Yard, server: Server) -> None:
    """A row without a scale has that of the file of details; one with another scale is said, and counts."""
    details = yard.write("details.csv", "tag,unit,scale,decimals\nTI-1,°C,10,1\nTI-1L,°C,10,1\n")
    mapped = yard.write("told.csv", "name,tag,scale\na,TI-1,\nb,TI-1L,100\nc,PI-2,\n")
    words = ("alm_feed", "--map", mapped, "--details", details)
    run = tool(*words, "--show", text="a,401.5\nb,40.15\nc,7\n")
    check(run.stdout == "a says 401.5: TI-1,4015\nb says 40.15: TI-1L,4015\nc says 7: PI-2,7\n", run.stdout)
    said = "feed: TI-1L: b goes by a scale of 100 in the map, and operators by 10\n"
    check(run.returncode == 0 and run.stderr == said, run.stderr)
    wrong = yard.write("wrong.csv", "tag,scale\nTI-1,0\n")
    for given, text in ((yard.path("none.csv"), "No such file"), (wrong, "row 2, scale: 0 is no decimal number")):
        run = tool("alm_feed", "--port", server.port, "--map", mapped, "--details", given, text="a,1\n")
        check((run.returncode, run.stderr.count("\n")) == (1, 1) and text in run.stderr, given, run.stderr)
    run = tool("alm_feed", "--port", server.port, "--details", details, text="TI-1,1\n")
    check(run.returncode == 2 and "--details goes with --map" in run.stderr, run.stderr)
