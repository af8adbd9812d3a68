"""What SQL counts over an archive of one plant or more. tests/tools/history.py runs these checks."""
import contextlib
import re
import shutil
import sqlite3
import subprocess
from archives import postgresql, python_with
from alarms.client import CLOCK, FEED, Client
from archive_site import FORMAT_1, FORMAT_2, OPEN, PAGES, STOPPED, Site, WITHOUT, page_block, write_new_table
from lib.program import check
from slow_count import is_annunciation, replay
from alarms.table_file import Table
from lib.tools import Yard


def counted_once(yard: Yard, _count: int) -> str:
    """The page's query, the list and the report count each annunciation once, though a change of the table brought
    states; so they do over an archive of formats 1 and 2, and once it is brought to the newest."""
    return judge_counting(Site(yard, 92))


def counted_postgresql(yard: Yard, _count: int) -> str:
    """The same over PostgreSQL."""
    python = python_with("psycopg")
    if not python or not shutil.which("psql"):
        return "no psycopg or no PostgreSQL: counts there left out"
    with postgresql(yard) as place:
        return judge_counting(Site(yard, 93, place, python)) + " in PostgreSQL"


def judge_counting(site: Site) -> str:
    """What SQL counts is what was annunciated, over each plant of the name."""
    count = changed_plants(site)
    ((brought,),) = site.rows("SELECT counted FROM plant WHERE plant = 2")
    check(brought > 0, "nothing was brought")
    judge_counts(site, count)
    for older in (FORMAT_2, FORMAT_1):
        make_old(site, older)
        judge_counts(site, count, has_view=older == FORMAT_2)
    check(
        site.rows("SELECT COUNT(*) FROM history WHERE annunciated = 1")[0][0] > count,
        "an archive of format 1 counts no more",
    )
    renewed(site, brought)
    make_old(site, FORMAT_2)
    renewed(site, brought)
    judge_counts(site, count)
    return f"{count} annunciations, {brought} brought actions"


def renewed(site: Site, brought: int) -> None:
    """An archiver brings an archive to the newest format."""
    site.server = site.yard.serve(site.device, site.port)
    site.archive()
    site.stop()
    check(
        site.rows("SELECT counted FROM plant WHERE plant = 2") == [(brought,)]
        and site.rows("SELECT format FROM about") == [(3,)]
        and site.rows("SELECT COUNT(*) FROM denied") == [(0,)],
        "another count",
    )


def changed_plants(site: Site) -> int:
    """Two plants of a name, the second with another table; how many annunciations there were."""
    for _ in range(6):
        site.ask(60)
    bring_up(site)
    count = annunciations(site.yard, site.table, site.accepted)
    site.stop()
    write_new_table(site)
    done = site.tool("archive", "run", site.device, site.database, STOPPED)
    check(
        done.returncode == 0 and done.stdout.endswith(f"{max(site.accepted)} actions, to its end\n"),
        done.stdout,
        done.stderr,
    )
    site.run(page_block("OPERATING.md", "Change the table"))
    site.server = site.yard.serve(site.device)
    site.port = site.server.port
    with Client.connect(site.port, CLOCK) as clock, Client.connect(site.port, FEED) as feed:
        clock.clock(site.moment + 100)
        feed.value(len(site.table.alarms), 7)
    site.archive_stopped()
    check(
        site.rows("SELECT ends FROM plant WHERE plant = 1") == [(max(site.accepted),)]
        and not site.rows(f"SELECT 1 FROM gap WHERE why = '{OPEN.replace(chr(39), chr(39) * 2)}'"),
        "an open end",
    )
    return count + 1


def make_old(site: Site, script: str) -> None:
    """Makes an archive one of an earlier format, from the one behind it."""
    if not site.database.endswith(".sqlite"):
        run = subprocess.run(
            ["psql", "-X", "-q", "-v", "ON_ERROR_STOP=1", site.database],
            input=script.replace(WITHOUT, ""),
            capture_output=True,
            text=True,
            timeout=60,
        )
        return check(run.returncode == 0, run.stderr)
    with contextlib.closing(sqlite3.connect(site.database)) as connection:
        connection.executescript(script)


def bring_up(site: Site) -> None:
    """Each alarm comes, so that there is something to bring."""
    with Client.connect(site.port, FEED) as feed:
        for number, alarm in enumerate(site.table.alarms):
            for value in (alarm.going, alarm.coming):
                for reply in feed.ask_all([f"VAL {number} {value}"]):
                    if isinstance(reply, list):
                        site.accepted[int(reply[1])] = f"VAL {number} {value}"


def annunciations(yard: Yard, table: Table, accepted: dict[int, str]) -> int:
    """How many the program itself shows."""
    shown = replay(yard, table, [accepted[one] for one in sorted(accepted)])
    return sum(
        is_annunciation(before, after, alarm)
        for before, after in zip(shown, shown[1:])
        for alarm in range(len(table.alarms))
    )


def judge_counts(site: Site, count: int, has_view: bool = True) -> None:
    """What a report, the list and the view `history` count; the page's query as it stands there, but of all
    priorities."""
    report = site.tool("reports", site.database)
    check(
        re.search(rf"^  annunciations +{count}$", report.stdout, re.MULTILINE),
        "a report counts",
        report.stdout,
        report.stderr,
        "and there were",
        count,
    )
    listed = site.tool("archive", "list", site.database).stdout
    check(
        sum(map(int, re.findall(r"(\d+) annunciations", listed))) == count and "only brought" in listed, listed, count
    )
    if has_view:
        page = (PAGES / "HISTORY.md").read_text(encoding="utf-8")
        query = re.search(r"```sql\n(.*?);\n```", page, re.DOTALL)[1].replace(" AND priority = 1", "")
        found = site.rows(
            query if site.database.endswith(".sqlite") else query.replace("datetime(moment, 'unixepoch')", "moment")
        )
        check(len(found) == count, "the page's query gives", len(found), "and there were", count)
