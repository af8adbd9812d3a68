"""Who asked for an action and why, by the action's number, in a file of SQLite.

A device stores neither. A row is written before the server is asked, and has the action's number once the server has
answered: so an action that was done while this process was killed has at least a row of who asked for it.
docs/CONTROL_ROOM.md says what each column means, and how the rows are joined to those of an archive.
"""
import json
import sqlite3
import time
from typing import Iterable, NamedTuple, Optional

from ..ending import Fault
from .positions import TAKE, Holder

FORMAT = 1
TABLES = (
    (
        "CREATE TABLE note (id INTEGER PRIMARY KEY, name TEXT NOT NULL, number BIGINT, moment BIGINT, word TEXT NOT"
        " NULL, tag TEXT NOT NULL, value BIGINT, user TEXT NOT NULL, role TEXT NOT NULL, reason TEXT NOT NULL, asked"
        " REAL NOT NULL, outcome TEXT)"
    ),
    "CREATE INDEX note_number ON note (name, number)",
    "CREATE TABLE about (format INTEGER NOT NULL)",
    f"INSERT INTO about VALUES ({FORMAT})",
)
# Files of before these have the others alone.
LATER = (
    (
        "CREATE TABLE IF NOT EXISTS shift (id INTEGER PRIMARY KEY, name TEXT NOT NULL, position TEXT NOT NULL, word"
        " TEXT NOT NULL, user TEXT NOT NULL, role TEXT NOT NULL, remark TEXT NOT NULL, asked REAL NOT NULL, moment"
        " BIGINT, stands TEXT NOT NULL)"
    ),
    (
        "CREATE TABLE IF NOT EXISTS suppressed (name TEXT NOT NULL, tag TEXT NOT NULL, word TEXT NOT NULL, number BIGINT"
        " NOT NULL, moment BIGINT NOT NULL, user TEXT NOT NULL, reason TEXT NOT NULL, PRIMARY KEY (name, tag, word))"
    ),
    "CREATE TABLE IF NOT EXISTS shown (name TEXT PRIMARY KEY, alarms TEXT NOT NULL)",
)
# Notes that are read again as a plant begins.
MOST = 5000
OK, LOST = "OK", "no reply"


class NoNotes(Fault):
    """The file isn't one of notes, or can't be had; in one line."""


class NoteAsker(NamedTuple):
    """Who asks, in which role, and why."""

    user: str
    role: str
    reason: str


class Note(NamedTuple):
    """Who asked for an action of the plant, and why; with what tells it from one of the same number on another
    device."""

    moment: Optional[int]
    word: str
    tag: str
    user: str
    reason: str

    def is_of(self, moment: int, word: str, tag: Optional[str]) -> bool:
        return (self.word, self.tag) == (word, tag) and self.moment in (None, moment)


class Suppression(NamedTuple):
    """How a suppression began: the action's number, the plant's moment, who asked and why, as far as that was noted."""

    number: int
    moment: int
    user: str
    reason: str


class Notes:
    """The notes of one plant. A fault of the database keeps no operator from acknowledging: it is `fault`, until a note
    is kept again."""

    def __init__(self, path: str, name: str):
        self.path, self.name, self.fault = path, name, ""
        self.by_number: dict[int, Note] = {}
        try:
            self.connection = sqlite3.connect(path, timeout=1, isolation_level=None, check_same_thread=False)
            self.begin()
        except sqlite3.Error as error:
            raise NoNotes(f"{path}: {error}") from None

    def begin(self) -> None:
        run = self.connection.execute
        if not run("SELECT COUNT(*) FROM sqlite_master WHERE name = 'about'").fetchone()[0]:
            run("PRAGMA journal_mode = WAL")
            with self.transaction():
                for statement in TABLES:
                    run(statement)
        run("PRAGMA synchronous = FULL")
        found = run("SELECT format FROM about").fetchone()
        if found != (FORMAT,):
            raise NoNotes(f"{self.path} has notes of format {found and found[0]}, and this tool knows {FORMAT}")
        for statement in LATER:
            run(statement)

    def transaction(self) -> "Transaction":
        return Transaction(self.connection)

    def load(self) -> None:
        """Reads the last notes again, as a plant begins."""
        query = (
            "SELECT number, moment, word, tag, user, reason FROM note WHERE name = ? AND number IS NOT NULL ORDER BY id"
            " DESC LIMIT ?"
        )
        try:
            rows = self.connection.execute(query, (self.name, MOST)).fetchall()
        except sqlite3.Error as error:
            self.fault, rows = str(error), []
        self.by_number = {number: Note(*rest) for number, *rest in reversed(rows)}

    def asking(self, asker: NoteAsker, actions: Iterable[tuple[str, str, Optional[int]]]) -> list[Optional[int]]:
        """Notes that actions are asked for: their words, tags and values. The rows, or none where none could be
        kept."""
        insert = "INSERT INTO note (name, word, tag, value, user, role, reason, asked) VALUES (?, ?, ?, ?, ?, ?, ?, ?)"
        actions = list(actions)
        try:
            with self.transaction():
                rows = [
                    self.connection.execute(
                        insert, (self.name, *action, asker.user, asker.role, asker.reason, time.time())
                    ).lastrowid
                    for action in actions
                ]
            self.fault = ""
        except sqlite3.Error as error:
            self.fault, rows = str(error), [None] * len(actions)
        return rows

    def answered(self, asker: NoteAsker, answers: Iterable[tuple[Optional[int], str, str, Optional[int], str]]) -> None:
        """Notes what came of them: the row, word and tag of each, its number if it was accepted, and the outcome."""
        answers = list(answers)
        for _, word, tag, number, _ in answers:
            if number is not None:
                self.by_number[number] = Note(None, word, tag, asker.user, asker.reason)
        while len(self.by_number) > MOST:
            del self.by_number[next(iter(self.by_number))]
        self.write(
            "UPDATE note SET number = ?, outcome = ? WHERE id = ?",
            [(number, outcome, row) for row, _, _, number, outcome in answers if row is not None],
        )

    def came(self, moments: Iterable[tuple[int, int]]) -> None:
        """Notes the moments of actions, once the plant is shown behind them."""
        self.write(
            "UPDATE note SET moment = ? WHERE name = ? AND number = ? AND moment IS NULL",
            [(moment, self.name, number) for number, moment in moments],
        )

    def shift(self, asker: NoteAsker, position: str, word: str, moment: Optional[int], stands: list[list[str]]) -> None:
        """Notes that somebody took or left a position; `stands` has the tags and states of its areas' alarms that
        aren't normal."""
        self.write(
            "INSERT INTO shift (name, position, word, user, role, remark, asked, moment, stands) VALUES (?, ?, ?, ?, ?,"
            " ?, ?, ?, ?)",
            [
                (
                    self.name,
                    position,
                    word,
                    asker.user,
                    asker.role,
                    asker.reason,
                    time.time(),
                    moment,
                    json.dumps(stands),
                )
            ],
        )

    def holders(self) -> dict[str, Holder]:
        """Who had each position as this was noted last, by its name."""
        query = (
            "SELECT position, word, user, asked, remark FROM shift WHERE id IN (SELECT MAX(id) FROM shift WHERE name = ?"
            " GROUP BY position)"
        )
        try:
            rows = self.connection.execute(query, (self.name,)).fetchall()
        except sqlite3.Error as error:
            self.fault, rows = str(error), []
        return {
            position: Holder(user if word == TAKE else "", int(asked), remark)
            for position, word, user, asked, remark in rows
        }

    def keep_suppressions(self, fresh: dict[tuple[str, str], Suppression]) -> None:
        """Keeps how suppressions began, by tag and word, in the place of those before."""
        self.write(
            "INSERT OR REPLACE INTO suppressed (name, tag, word, number, moment, user, reason) VALUES (?, ?, ?, ?, ?, ?,"
            " ?)",
            [(self.name, *key, *one) for key, one in fresh.items()],
        )

    def suppressions(self) -> dict[tuple[str, str], Suppression]:
        """How the suppression of each tag by each word began last."""
        query = "SELECT tag, word, number, moment, user, reason FROM suppressed WHERE name = ?"
        try:
            rows = self.connection.execute(query, (self.name,)).fetchall()
        except sqlite3.Error as error:
            self.fault, rows = str(error), []
        return {(tag, word): Suppression(*rest) for tag, word, *rest in rows}

    def is_other_table(self, alarms: str) -> bool:
        """Whether the plant was shown before with other alarms than those of this sum, which is kept then."""
        try:
            before = self.connection.execute("SELECT alarms FROM shown WHERE name = ?", (self.name,)).fetchone()
        except sqlite3.Error as error:
            self.fault, before = str(error), None
        if before != (alarms,):
            self.write("INSERT OR REPLACE INTO shown (name, alarms) VALUES (?, ?)", [(self.name, alarms)])
        return before not in (None, (alarms,))

    def write(self, statement: str, rows: list[tuple]) -> None:
        try:
            if rows:
                with self.transaction():
                    self.connection.executemany(statement, rows)
        except sqlite3.Error as error:
            self.fault = str(error)

    def of(self, number: int, moment: int, word: str, tag: Optional[str]) -> Optional[Note]:
        """The note of an action, if there is one."""
        note = self.by_number.get(number)
        return note if note and note.is_of(moment, word, tag) else None

    def close(self) -> None:
        self.connection.close()


class Transaction:
    """Statements that are kept together, or none of them."""

    def __init__(self, connection: sqlite3.Connection):
        self.connection = connection

    def __enter__(self) -> None:
        self.connection.execute("BEGIN IMMEDIATE")

    def __exit__(self, kind: object, *_: object) -> None:
        if kind is None:
            self.connection.execute("COMMIT")
        elif self.connection.in_transaction:
            self.connection.execute("ROLLBACK")
