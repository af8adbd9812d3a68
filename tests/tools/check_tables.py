"""Tables against the built program: `export`, alm_csv2toml and alm_change_table. tests/tools/clients.py runs these
checks."""
import random
from dataclasses import replace
from typing import Iterator

from lib.program import check
from lib.tools import Yard, tool, toml
from alarms.table_file import (
    CALM_SEGMENT,
    KINDS,
    LEAST_SEGMENT,
    READING_LIMIT,
    SHELVE_LIMIT,
    Alarm,
    Table,
    device_size,
    read_table,
)

TAG_BYTES, TEXT_BYTES = bytes(range(0x21, 0x7F)).decode(), bytes(range(0x20, 0x7F)).decode()
TEXT_LIMIT = 80
HEAD = "tag,kind,setpoint,priority,area,deadband,max_shelve,latching,text\n"
ROWS = HEAD + 'TI-1,High,800,1,0,10,3600,,"Hot, \\ ""very"""\nXS-2,discrete,1,4,3,,,TRUE,\n'
FAULTS = {
    "TI-1,high,x,1,0,,,,\n": "row 2, setpoint: x is no whole number",
    "TI-1,high,1,5,0,,,,\n": "row 2, priority: 5 isn't from 1 to 4",
    ",high,1,1,0,,,,\n": "row 2, tag: it is missing",
    "T 1,high,1,1,0,,,,\n": "row 2, tag: ' ' isn't allowed",
    "TI-1,discrete,1,1,0,2,,,\n": "row 2, deadband: a discrete alarm has none",
    "TI-1,up,1,1,0,,,,\n": "row 2, kind: up is none of",
    "TI-1,high,1,1,0\n": "row 2: it has more or fewer cells than row 1",
    "": "0 alarms",
}


def draw_string(dice: random.Random, letters: str, least: int, most: int) -> str:
    return "".join(dice.choices(letters, k=dice.choice([least, most, dice.randint(least, most)])))


def draw_alarm(dice: random.Random, areas: int) -> Alarm:
    """An alarm, its numbers often at their limits."""
    kind = dice.choice(KINDS)
    near = lambda least, most: dice.choice([least, most, dice.randint(least, most)])
    return Alarm(
        kind,
        near(-READING_LIMIT, READING_LIMIT),
        dice.randint(1, 4),
        near(0, areas - 1),
        draw_string(dice, TAG_BYTES, 1, 32),
        0 if kind == "discrete" else near(0, READING_LIMIT),
        near(0, SHELVE_LIMIT),
        dice.random() < 0.5,
        draw_string(dice, TEXT_BYTES, 0, TEXT_LIMIT),
    )


def draw_table(dice: random.Random) -> Table:
    areas = dice.choice([1, 2, 64, dice.randint(1, 64)])
    alarms = [draw_alarm(dice, areas) for _ in range(dice.randint(1, 6))]
    return Table(device_size(len(alarms), areas, LEAST_SEGMENT) + dice.randint(0, 5000), areas, alarms)


def change_one(yard: Yard, device: str, table: Table, dice: random.Random) -> None:
    """Gives an alarm another priority and another setpoint, where they are others."""
    number = dice.randrange(len(table.alarms))
    priority, setpoint = dice.randint(1, 4), dice.randint(-READING_LIMIT, READING_LIMIT)
    yard.run("desk", device, lines=f"0 1 PRIO {number} {priority}\n0 2 SETP {number} {setpoint}\n")
    table.alarms[number] = replace(table.alarms[number], priority=priority, setpoint=setpoint)


def export(yard: Yard, count: int) -> str:
    """Exported tables are the tables that were formatted, with the priorities and setpoints that were given since."""
    dice, seen = random.Random(41), ""
    for _ in range(count):
        table = draw_table(dice)
        device = yard.format("export.device", yard.write("export.toml", toml(table, lambda: dice.random() < 0.5)))
        if dice.random() < 0.3:
            change_one(yard, device, table, dice)
        exported = yard.run("export", device)
        check(read_table(exported) == table, toml(table), "was exported as", exported)
        again = yard.format("again.device", yard.write("again.toml", exported))
        check(yard.run("export", again) == exported, "an exported table exports as another", exported)
        seen += "".join(alarm.tag + alarm.text for alarm in table.alarms)
    check(set(TEXT_BYTES) <= set(seen), "a byte was never drawn")
    return f"{count} tables exported"


def export_served(yard: Yard, count: int) -> str:
    """The table of a served plant is what `export` prints once the server has ended, byte for byte."""
    dice = random.Random(43)
    for _ in range(count):
        table = draw_table(dice)
        device = yard.format("served.device", yard.write("served.toml", toml(table, lambda: dice.random() < 0.5)))
        change_one(yard, device, table, dice)
        server = yard.serve(device)
        told = tool("alm_export", "--port", server.port, "--slot", dice.randrange(16), "--device", device)
        alone = tool("alm_export", "--port", server.port)
        server.end()
        exported = yard.run("export", device)
        check(told.returncode == 0 and told.stdout == exported, told.stdout, told.stderr, "isn't", exported)
        size = device_size(len(table.alarms), table.areas)
        check(alone.stdout == exported.replace(f"size = {table.size}\n", f"size = {size}\n", 1), alone.stdout)
    return f"{count} tables of served plants"


def export_largest(yard: Yard) -> str:
    """The largest table is exported whole."""
    alarms = [
        Alarm("low", number, 1 + number % 4, number % 64, f"T-{number}", text="\"\\'" * 26) for number in range(16_384)
    ]
    table = Table(device_size(len(alarms), 64), 64, alarms)
    device = yard.format("largest.device", yard.write("largest.toml", toml(table)))
    check(read_table(yard.run("export", device)) == table, "the largest table is exported as another")
    return "16384 alarms"


def csv(yard: Yard) -> str:
    """A spreadsheet's table formats and exports as it is; each fault is reported with its row."""
    run = tool("alm_csv2toml", yard.write("table.csv", ROWS))
    check(run.returncode == 0, run.stderr)
    first, second = Alarm("high", 800, 1, 0, "TI-1", 10, 3600, False, 'Hot, \\ "very"'), Alarm(
        "discrete", 1, 4, 3, "XS-2", latching=True
    )
    wanted = Table(device_size(2, 4), 4, [first, second])
    check(read_table(run.stdout) == wanted, run.stdout)
    device = yard.format("csv.device", yard.write("csv.toml", run.stdout))
    check(read_table(yard.run("export", device)) == wanted, "the table of a CSV is exported as another")
    csv_segment(yard, wanted)
    csv_faults(yard)
    run = tool("alm_csv2toml", yard.write("table.csv", ROWS.replace("Hot,", "Hot").replace(",", ";")))
    check(
        read_table(run.stdout) == replace(wanted, alarms=[replace(first, text='Hot \\ "very"'), second]),
        run.stdout,
        run.stderr,
    )
    return "alm_csv2toml"


def csv_segment(yard: Yard, wanted: Table) -> None:
    """The size is the one for the segment that was asked for: `format` takes just that."""
    segment = CALM_SEGMENT + 12_345
    run = tool("alm_csv2toml", yard.write("table.csv", ROWS), "--segment", segment)
    check(read_table(run.stdout) == replace(wanted, size=device_size(2, 4, segment)), run.stdout, run.stderr)
    printed = yard.run("format", yard.path("csv.device"), yard.write("csv.toml", run.stdout))
    check(printed == f"formatted 2 4 {segment}\n", printed)


def csv_faults(yard: Yard) -> None:
    for row, said in FAULTS.items():
        run = tool("alm_csv2toml", yard.write("table.csv", HEAD + row))
        check(run.returncode == 1 and said in run.stderr and not run.stdout, row, run.stderr)
    with open(yard.path("latin.csv"), "wb") as file:
        file.write((HEAD + "TI-1,high,1,1,0,,,,\nTI-2,high,1,1,0,,,,in °C\n").encode("latin-1"))
    run = tool("alm_csv2toml", yard.path("latin.csv"))
    check(
        run.returncode == 1 and "row 3, text: " in run.stderr and "isn't allowed" in run.stderr and not run.stdout,
        run.stderr,
    )
    run = tool("alm_csv2toml", yard.write("table.csv", "tag,prio\n"))
    check(run.returncode == 1 and "unknown columns ['prio']" in run.stderr, run.stderr)


def changes(yard: Yard, count: int) -> str:
    """Drawn plants keep their states as their tables change."""
    lines = sum(change(yard, random.Random(seed)) for seed in range(count))
    return f"{count} tables changed with {lines} lines"


def change(yard: Yard, dice: random.Random) -> int:
    """Changes a drawn plant's table, with the priorities and setpoints in force or with new ones. How many lines that
    took."""
    alarms = [
        Alarm(
            dice.choice(KINDS),
            dice.randrange(-50, 50),
            dice.randint(1, 4),
            dice.randrange(3),
            f"T-{number}",
            max_shelve=5000,
            latching=dice.random() < 0.5,
        )
        for number in range(12)
    ]
    old = yard.format("old.device", yard.write("old.toml", toml(Table(device_size(12, 3), 3, alarms))))
    yard.run("desk", old, lines="".join(draw_lines(dice, alarms)))
    kept = dice.sample(alarms, 9)
    altered = [
        replace(alarm, priority=dice.randint(1, 4), setpoint=dice.randrange(-50, 50), text="altered") for alarm in kept
    ]
    added = [Alarm("high", 1, 1, dice.randrange(3), f"N-{number}") for number in range(3)]
    new_alarms = dice.sample(altered + added, 12)
    table = yard.write("new.toml", toml(Table(device_size(12, 3), 3, new_alarms)))
    new_values = dice.random() < 0.3
    length = bring(yard, old, table, ["--new-values"] * new_values, "9 alarms in both tables, 3 new, 3 left out")
    tags = {alarm.tag for alarm in kept}
    before, after = seen(yard, old, alarms, tags), seen(yard, yard.path("new.device"), new_alarms, tags)
    check(before[:2] == after[:2] and (new_values or before[2] == after[2]), "before", before, "after", after)
    source = altered if new_values else read_table(yard.run("export", old)).alarms
    check(
        values(source, tags) == values(read_table(yard.run("export", yard.path("new.device"))).alarms, tags),
        "priorities and setpoints are others",
    )
    return length


def values(alarms: list[Alarm], tags: set[str]) -> dict[str, tuple[int, int]]:
    """The priorities and setpoints of the alarms of these tags."""
    return {alarm.tag: (alarm.priority, alarm.setpoint) for alarm in alarms if alarm.tag in tags}


def bring(yard: Yard, old: str, table: str, words: list[object], said: str) -> int:
    """Brings a device's states onto new.device, formatted for a table; how many lines that took."""
    new = yard.format("new.device", table)
    run = tool("alm_change_table", old, table, "--program", yard.program, *words)
    check(run.returncode == 0 and said in run.stderr, run.stderr)
    replies = yard.run("desk", new, lines=run.stdout).splitlines()
    for line, reply in zip(run.stdout.splitlines(), replies, strict=True):
        check(" OK " in reply, line, "was answered", reply)
    return len(replies)


def kept_back(yard: Yard) -> str:
    """What a new table can't hold has a status of its own, and all else is brought. Without a table to go by nothing
    is."""
    alarms = [Alarm("high", 10, 1, 0, f"T-{number}", max_shelve=3600) for number in range(2)]
    old = yard.format("held.device", yard.write("held.toml", toml(Table(device_size(2, 1), 1, alarms))))
    yard.run("desk", old, lines="17 1 CLOCK 1000\n0 2 SHELVE 0 3000\n0 3 OOS 1 ON\n")
    shorter = yard.write(
        "shorter.toml", toml(Table(device_size(2, 1), 1, [replace(alarms[0], max_shelve=60), alarms[1]]))
    )
    run = tool("alm_change_table", old, shorter, "--program", yard.program)
    check(
        run.returncode == 4 and "T-0: " in run.stderr and "SHELVE 0 60\n" in run.stdout and "OOS 1 ON\n" in run.stdout,
        run,
    )
    run = tool("alm_change_table", old, yard.write("broken.toml", "size = "), "--program", yard.program)
    check(run.returncode == 1 and "change_table: " in run.stderr and not run.stdout, run)
    return "a shelving that a new table can't hold"


def draw_lines(dice: random.Random, alarms: list[Alarm]) -> Iterator[str]:
    """Desk lines that bring about each state."""
    clock = dice.choice([0, 100, 5000])
    for number in range(1, 150):
        alarm = dice.randrange(len(alarms))
        kind = dice.randrange(12)
        if kind < 6:
            yield f"16 {number} VAL {alarm} {alarms[alarm].setpoint + dice.choice([-1, 0, 1])}\n"
        elif kind < 8:
            yield f"0 {number} ACK {alarm}\n"
        elif kind == 8:
            clock += dice.randrange(1, 400)
            yield f"17 {number} CLOCK {clock}\n"
        else:
            seconds, priority, setpoint = dice.randrange(1, 5000), dice.randint(1, 4), dice.randrange(-50, 50)
            words = [
                f"0 {number} SHELVE {alarm} {seconds}",
                f"0 {number} UNSHELVE {alarm}",
                f"0 {number} OOS {alarm} ON",
                f"0 {number} OOS {alarm} OFF",
                f"16 {number} DESIGN {alarm} ON",
                f"16 {number} DESIGN {alarm} OFF",
                f"0 {number} PRIO {alarm} {priority}",
                f"0 {number} SETP {alarm} {setpoint}",
                f"0 {number} RESET {alarm}",
            ]
            yield dice.choice(words) + "\n"


def seen(yard: Yard, device: str, alarms: list[Alarm], tags: set[str]) -> tuple:
    """What `show` says of the alarms of these tags: the clock, each alarm by its tag, and the lists by tag."""
    now, shown, lists = yard.shown(device)
    listed = [[alarms[number].tag for number in numbers if alarms[number].tag in tags] for numbers in lists]
    return now, {tag: words for tag, words in shown.items() if tag in tags}, listed
