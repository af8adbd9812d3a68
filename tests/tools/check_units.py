"""Values in the operator's unit, by a file of details: of alm_csv2toml, alm_console and alm_reports.
tests/tools/clients.py runs this check."""
import csv
import os
import shutil
import time

from alarms.client import CLOCK, FEED, Client
from alarms.table_file import load_table, read_table
from archives import archive_stopped
from lib.places import EXAMPLES
from lib.program import check
from lib.tools import Terminal, Yard, tool

REFINERY, DETAILS = str(EXAMPLES / "refinery.toml"), str(EXAMPLES / "refinery.details.csv")
HEAD = "tag,kind,setpoint,priority,area,deadband\n"
TOLD = "tag,unit,scale,decimals,text,response,respond\nTI-1,°C,10,1,Ofen zu heiß,Brennstoff drosseln,60\nXX-9,,,,,,\n"


def tables(yard: Yard) -> None:
    """Setpoints and deadbands of a spreadsheet are those of the operator; a fraction that is dropped is a fault."""
    details = yard.write("own.csv", TOLD)
    given = yard.write("table.csv", HEAD + "TI-1,high,385.5,1,0,2.5\nXS-2,discrete,1,2,0,\n")
    run = tool("alm_csv2toml", given, "--details", details)
    check(run.returncode == 0, "csv2toml ends with", run.returncode, run.stderr)
    found = [(alarm.setpoint, alarm.deadband) for alarm in read_table(run.stdout).alarms]
    check(found == [(3855, 25), (1, 0)], "the table has", found)
    for said in ("1 tags that the plant hasn't: XX-9", "1 tags that the plant has, and the file hasn't: XS-2"):
        check(f"csv2toml: {details}: {said}\n" in run.stderr, "it says", run.stderr)
    for row, said in (
        ("TI-1,high,385.55,1,0,\n", "row 2, setpoint: 385.55 has a fraction that a scale of 10 drops"),
        ("TI-1,high,1,1,0,x\n", "row 2, deadband: x is no number"),
        ("XS-2,high,1.5,1,0,\n", "row 2, setpoint: 1.5 has a fraction that a scale of 1 drops"),
    ):
        run = tool("alm_csv2toml", yard.write("table.csv", HEAD + row), "--details", details)
        check((run.returncode, run.stdout) == (1, "") and said in run.stderr, row, "is answered", run.stderr)
        check(run.stderr.count("\n") == 1, "it says", run.stderr)
    for name, words in (
        ("alm_csv2toml", (given,)),
        ("alm_console", ("--port", "5000")),
        ("alm_reports", (yard.path("archive"), "--name", "plant")),
    ):
        run = tool(name, *words, "--details", yard.path("none.csv"))
        check(run.returncode == 1 and run.stderr.count("\n") == 1 and "No such file" in run.stderr, name, run.stderr)


def console(yard: Yard, port: int) -> None:
    """Texts and responses are the operator's; a setpoint is typed in his unit, and a fraction isn't dropped; what
    happened is told in it too."""
    if not shutil.which("tmux"):
        return
    own = yard.write("console.csv", TOLD.replace("TI-1,", "TI-101,"))
    with Terminal(port, "--details", own) as terminal:
        terminal.shows("TI-101", "Ofen zu heiß", "response within 60 s: Brennstoff drosseln")
        terminal.shows("1 tags that the plant hasn't: XX-9")
        terminal.press("t")
        terminal.shows("TI-101: setpoint, now 380.0 °C:")
        terminal.type("385.55")
        terminal.shows("TI-101: 385.55 has a fraction that a scale of 10 drops")
        terminal.press("t")
        terminal.type("385.5")
        terminal.shows("TI-101 given setpoint 385.5 °C as action ")
        terminal.press("8")
        terminal.shows("TI-101         given setpoint 385.5 °C", "TI-101         value 380.0 °C")
        terminal.press("q")


def reports(yard: Yard, device: str) -> None:
    """A setpoint that was given is told in the operator's unit."""
    archive, folder = yard.path("archive.sqlite"), yard.path("figures")
    archive_stopped(device, archive)
    for words, wanted in (
        (("--details", DETAILS), ["TI-101", "setpoint", "385.5", "°C"]),
        ((), ["TI-101", "setpoint", "3855"]),
    ):
        run = tool("alm_reports", archive, "--name", "plant", "--csv", folder, *words)
        check(run.returncode == 0, "alm_reports ends with", run.returncode, run.stderr)
        with open(os.path.join(folder, "attributes.csv"), encoding="utf-8", newline="") as file:
            rows = [row[1:] for row in csv.reader(file)]
        check(rows[1:] == [wanted], words, "has", rows)


def units(yard: Yard) -> str:
    """The three tools over one served plant."""
    tables(yard)
    device = yard.format("units.device", REFINERY)
    server = yard.serve(device)
    with Client.connect(server.port, CLOCK) as clock, Client.connect(server.port, FEED) as feed:
        clock.clock(int(time.time()))
        feed.value(0, load_table(REFINERY).alarms[0].setpoint)
        console(yard, server.port)
        if not shutil.which("tmux"):
            with Client.connect(server.port, 3) as one:
                one.setpoint(0, 3855)
        with Client.connect(server.port, 3) as one:
            found = one.attributes(0).setpoint
        check(found == 3855, "the server has", found)
        clock.clock(int(time.time()) + 1)
    server.end()
    reports(yard, device)
    return "units of the operator in three tools"
