"""A plant in a folder as the pages have it, with its archive, and the pages' blocks that replace its device."""
import os
import random
import re
import subprocess
import sys
from archives import SEGMENT, archive_once, archive_stopped, psql, rows_of, run_tool
from lib.drawn_plants import Hand, draw_plant, new_device
from lib.places import DOCS
from lib.program import check
from alarms.table_file import Alarm, Table
from lib.tools import Yard, toml


PAGES = DOCS


HEREDOC = re.compile(r"<<'END'[^\n]*\n(.*?)^END$", re.MULTILINE | re.DOTALL)


STOPPED = "--stopped"


OPEN = "the plant's end wasn't seen"


# Makes an archive one of format 2, and then of format 1: the tables and the view that are others now. SQLite's have no
# number of their own.
WITHOUT = "WITHOUT ROWID"


FORMAT_2 = """
DROP TABLE denied;
DROP TABLE state;
UPDATE about SET format = 2;
"""


FORMAT_1 = """
CREATE TABLE old_plant (plant INTEGER PRIMARY KEY, name TEXT NOT NULL, device TEXT NOT NULL, areas INTEGER NOT NULL, begins BIGINT NOT NULL, shown BIGINT NOT NULL);
INSERT INTO old_plant SELECT plant, name, device, areas, begins, shown FROM plant;
CREATE TABLE old_gap (plant INTEGER NOT NULL, first BIGINT NOT NULL, last BIGINT NOT NULL, began BIGINT, ended BIGINT NOT NULL, why TEXT NOT NULL,
PRIMARY KEY (plant, first)) WITHOUT ROWID;
INSERT INTO old_gap SELECT * FROM gap WHERE last IS NOT NULL AND ended IS NOT NULL;
DROP VIEW history;
DROP TABLE plant;
DROP TABLE gap;
ALTER TABLE old_plant RENAME TO plant;
ALTER TABLE old_gap RENAME TO gap;
CREATE VIEW history AS SELECT p.name AS name, a.plant AS plant, a.number AS number, a.moment AS moment, a.word AS word,
COALESCE(c.tag, a.tag) AS tag, c.priority AS priority, c.before AS before, c.after AS after, c.annunciated AS annunciated, a.value AS value, a.slot AS slot
FROM action a JOIN plant p ON p.plant = a.plant LEFT JOIN change c ON c.plant = a.plant AND c.number = a.number;
UPDATE about SET format = 1;
"""


class Site:
    """A plant in a folder as a page has it: its device, its archive, and the program and its tools."""

    def __init__(self, yard: Yard, seed: int, database: str = "", python: str = sys.executable):
        self.yard, self.dice, self.python = yard, random.Random(seed), python
        self.table = draw_plant(self.dice, 10, 2, SEGMENT)
        new_device(yard, "plant", self.table)
        self.device, self.database = yard.path("plant.device"), database or yard.path("archive/plant.sqlite")
        for folder in ("archive", "backup"):
            os.makedirs(yard.path(folder), exist_ok=True)
        self.moment, self.port, self.server = 1_790_000_000, 0, None
        self.accepted: dict[int, str] = {}

    def ask(self, count: int) -> None:
        """Serves the device, and asks at it."""
        if self.server is None:
            self.server = self.yard.serve(self.device, self.port)
            self.port = self.server.port
        hand = Hand(self.dice, self.table, self.moment)
        hand.accepted.update(self.accepted)
        hand.connect(self.server)
        hand.ask(count)
        hand.leave()
        self.moment, self.accepted = hand.moment, hand.accepted

    def stop(self) -> None:
        self.server.end()
        self.server = None

    def archive(self) -> str:
        """Archives what the server shows; what that says."""
        return archive_once(self.database, self.port, python=self.python)

    def archive_stopped(self) -> str:
        """Stops the server, and archives its device; what that says."""
        self.stop()
        return archive_stopped(self.device, self.database, python=self.python)

    def tool(self, name: str, *words: object) -> subprocess.CompletedProcess:
        return run_tool(name, *words, python=self.python)

    def rows(self, statement: str) -> list[tuple]:
        """What the database's own program finds."""
        return (
            rows_of(self.database, statement) if self.database.endswith(".sqlite") else psql(self.database, statement)
        )

    def run(self, block: str) -> None:
        """Runs a block of the page."""
        for page, here in (
            ("/etc/alarms/", f"{self.yard.folder}/"),
            ("/var/lib/alarms-archive/", self.yard.path("archive/")),
            ("/var/lib/alarms", self.yard.folder),
            ("/backup/", self.yard.path("backup/")),
        ):
            block = block.replace(page, here)
        run = subprocess.run(
            ["bash", "-eu"],
            input=block,
            capture_output=True,
            text=True,
            cwd=self.yard.folder,
            timeout=120,
            env=self.yard.with_commands(),
        )
        check(run.returncode == 0, block, run.stdout, run.stderr)

    def numbers(self, plant: int) -> list[int]:
        return [
            row[0] for row in rows_of(self.database, "SELECT number FROM action WHERE plant = ? ORDER BY number", plant)
        ]

    def gaps(self) -> list[tuple]:
        return rows_of(self.database, "SELECT plant, first, last, why FROM gap ORDER BY plant, first")


def page_block(page: str, heading: str) -> str:
    """The block of a section that replaces a device, without the lines that want systemd or another user."""
    section = next(
        part for part in (PAGES / page).read_text(encoding="utf-8").split("\n## ") if part.startswith(f"{heading}\n")
    )
    blocks = re.findall(r"```sh\n(.*?)```", section, re.DOTALL)
    block = next(one for one in blocks if re.search(r"^mv .*device plant\.device$", one, re.MULTILINE))
    body = HEREDOC.search(block)
    lines = (body[1] if body else block).splitlines()
    kept = [
        line.partition("runuser -u alarms -- ")[2] if "runuser" in line else line
        for line in lines
        if not line.startswith(("systemctl", "chown"))
    ]
    return "\n".join(kept) + "\n"


def write_new_table(site: Site) -> None:
    """A table with one alarm more, where the page has it."""
    site.yard.write(
        "new.toml",
        toml(Table(site.table.size + 1000, site.table.areas, [*site.table.alarms, Alarm("high", 5, 1, 0, "NEW-1")])),
    )
