"""The end of a plant whose device is replaced, and what SQL counts over an archive, against the built program.
tests/tools/history.py runs these checks.

The device is replaced by the blocks of docs/OPERATING.md, as they stand there but for their paths.
"""
import contextlib
import os
import re
import shutil

from archives import rows_of, run_tool
from alarms.client import CLOCK, Client
from lib.program import check
from lib.tools import Yard
from check_counted import counted_once, counted_postgresql
from archives import one_line
from archive_site import OPEN, STOPPED, Site, page_block, write_new_table


def without_tail(block: str) -> str:
    """A block as it would be without the archiver's run."""
    return "\n".join(line for line in block.replace("\\\n", " ").splitlines() if STOPPED not in line) + "\n"


def replaced_by(yard: Yard, seed: int, block: str) -> Site:
    """Server and archiver end together behind actions that nobody archived; then a block of a page replaces the device,
    and both begin again."""
    site = Site(yard, seed)
    site.ask(120)
    site.archive_stopped()
    shutil.copyfile(site.device, yard.path("backup/plant.device"))
    site.ask(60)
    site.archive()
    write_new_table(site)
    site.ask(60)
    site.stop()
    site.run(block)
    site.port = 0
    with contextlib.closing(Client.connect((server := yard.serve(site.device)).port, CLOCK)) as clock:
        clock.clock(site.moment + 100)
    site.server, site.port = server, server.port
    site.said = site.archive()
    site.stop()
    return site


def tails(yard: Yard, _count: int) -> str:
    """With the page's block nothing of a replaced plant is missing; without its line the archive and a report say what
    may be."""
    found = []
    for turn, (page, heading) in enumerate(
        (
            ("OPERATING.md", "Change the table"),
            ("OPERATING.md", "Back up and restore"),
            ("OPERATING.md", "A clock that ran ahead"),
        )
    ):
        block = page_block(page, heading).replace("$(date +%s)", "1790000500")
        check(STOPPED in block, page, heading, "has no line that archives the stopped device")
        for is_whole in (True, False):
            folder = yard.path(f"{turn}{is_whole}")
            os.mkdir(folder)
            site = replaced_by(Yard(yard.program, folder), 80 + turn, block if is_whole else without_tail(block))
            last, numbers = max(site.accepted), site.numbers(1)
            gaps = [row for row in site.gaps() if row[3] == OPEN]
            report = run_tool("reports", site.database, "--csv", os.path.join(folder, "csv"))
            check(
                report.returncode == 0 and rows_of(site.database, "SELECT COUNT(*) FROM plant") == [(2,)],
                report.stderr,
                site.said,
            )
            if is_whole:
                check(
                    numbers == list(range(1, last + 1)) and not gaps and OPEN not in site.said,
                    heading,
                    "archived",
                    numbers[-1:],
                    "of",
                    last,
                    gaps,
                )
            else:
                check(
                    numbers[-1] < last and gaps == [(1, numbers[-1] + 1, None, OPEN)] and OPEN in site.said,
                    heading,
                    gaps,
                    site.said,
                )
            check(re.search(rf"gaps without a known end +{int(not is_whole)} ", report.stdout), report.stdout)
            listed = run_tool("archive", "list", site.database).stdout
            check(("and later" in listed) != is_whole, listed)
            found.append(last)
    return f"ends of {len(found)} replaced plants"


def refusals(yard: Yard, _count: int) -> str:
    """A device that is served, that isn't there or isn't one, and words that don't go together."""
    site = Site(yard, 91)
    site.ask(20)
    run = ("archive", "run", site.device, site.database)
    one_line(run_tool(*run, STOPPED), 1, "is served, or in use", "a served device")
    one_line(run_tool(*run, STOPPED, "--port", site.port), 2, "is required, and no two of them", "two places")
    one_line(run_tool(*run), 2, "is required", "no place")
    site.stop()
    one_line(run_tool("archive", "run", yard.path("none"), site.database, STOPPED), 1, "No such file", "no device")
    one_line(run_tool("archive", "run", yard.write("text", "none " * 999), site.database, STOPPED), 1, "", "no device")
    check(
        not os.path.exists(site.database) or not rows_of(site.database, "SELECT * FROM plant"),
        "a refused device is archived",
    )
    for turn in range(2):
        done = run_tool(*run, STOPPED)
        check(
            done.returncode == 0 and done.stdout == f"plant: plant 1, {max(site.accepted)} actions, to its end\n",
            done.stdout,
            done.stderr,
        )
    check(site.numbers(1) == sorted(site.accepted) and site.gaps() == [], site.gaps())
    site.ask(10)
    check(site.archive() == "", "the archive doesn't go on")
    check(site.numbers(1) == sorted(site.accepted), "others are archived")
    site.stop()
    return "a stopped device"


CHECKS = {"tails": tails, "refusals": refusals, "counted": counted_once, "counted_postgresql": counted_postgresql}
