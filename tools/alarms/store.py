"""The tables of an archive, in a file of SQLite or a database of PostgreSQL. docs/HISTORY.md says what each column
means.

    with Store.open("plant.sqlite") as store:                       # or "postgresql://archive@host/alarms"
        for row in store.rows("SELECT tag, moment FROM change WHERE annunciated = 1"):
            ..

A statement is written with ? for each value, for both. Whatever goes wrong is a `StoreFault`, whose text is one line.
"""
import itertools
import os
import sqlite3
from typing import Any, Iterable, Iterator, Optional, Sequence

from .ending import Fault
from .known import known

# What a reader can do without is read of formats 1 and 2 too; who writes brings it to the newest.
FORMAT, OLDEST = 3, 1
# Seconds that a statement waits for another process which writes a file of SQLite.
PATIENCE = 60
# Rows that are fetched at once.
CHUNK = 5000
TABLES = {
    "plant": (
        "plant INTEGER PRIMARY KEY, name TEXT NOT NULL, device TEXT NOT NULL, areas INTEGER NOT NULL, begins BIGINT NOT"
        " NULL, shown BIGINT NOT NULL, counted BIGINT NOT NULL, ends BIGINT"
    ),
    "alarm": (
        "plant INTEGER NOT NULL, alarm INTEGER NOT NULL, tag TEXT NOT NULL, text TEXT NOT NULL, kind TEXT NOT NULL,"
        " area INTEGER NOT NULL, priority INTEGER NOT NULL, setpoint BIGINT NOT NULL, deadband BIGINT NOT NULL,"
        " max_shelve INTEGER NOT NULL, latching INTEGER NOT NULL, PRIMARY KEY (plant, alarm)"
    ),
    "action": (
        "plant INTEGER NOT NULL, number BIGINT NOT NULL, moment BIGINT NOT NULL, word TEXT NOT NULL, alarm INTEGER, tag"
        " TEXT, value BIGINT, slot INTEGER, PRIMARY KEY (plant, number)"
    ),
    "change": (
        "plant INTEGER NOT NULL, alarm INTEGER NOT NULL, number BIGINT NOT NULL, moment BIGINT NOT NULL, tag TEXT NOT"
        " NULL, priority INTEGER NOT NULL, area INTEGER NOT NULL, before TEXT, after TEXT NOT NULL, flags TEXT NOT"
        " NULL, annunciated INTEGER NOT NULL, since BIGINT, PRIMARY KEY (plant, alarm, number)"
    ),
    "flood": (
        "plant INTEGER NOT NULL, area INTEGER NOT NULL, number BIGINT NOT NULL, moment BIGINT NOT NULL, flooded INTEGER"
        " NOT NULL, annunciations BIGINT NOT NULL, PRIMARY KEY (plant, area, number)"
    ),
    "gap": (
        "plant INTEGER NOT NULL, first BIGINT NOT NULL, last BIGINT, began BIGINT, ended BIGINT, why TEXT NOT NULL, "
        "PRIMARY KEY (plant, first)"
    ),
    "denied": (
        "plant INTEGER NOT NULL, alarm INTEGER NOT NULL, number BIGINT NOT NULL, moment BIGINT NOT NULL, tag TEXT NOT"
        " NULL, field TEXT NOT NULL, archived TEXT NOT NULL, shown TEXT NOT NULL, PRIMARY KEY (plant, alarm, number,"
        " field)"
    ),
    "state": (
        "plant INTEGER PRIMARY KEY, number BIGINT NOT NULL, moment BIGINT NOT NULL, stamp BIGINT NOT NULL, alarms TEXT"
        " NOT NULL"
    ),
    "about": "format INTEGER NOT NULL",
}
# What format 3 has, and those before hadn't.
NEW = ("denied", "state")
COLUMNS = {table: columns.split(", PRIMARY KEY")[0].count(",") + 1 for table, columns in TABLES.items()}
# One row for each action and each alarm that it changed: what an alarm journal shows. What a plant was only brought
# isn't in it.
HISTORY = """CREATE VIEW history AS SELECT p.name AS name, a.plant AS plant, a.number AS number, a.moment AS moment, a.word AS word,
COALESCE(c.tag, a.tag) AS tag, c.priority AS priority, c.before AS before, c.after AS after, c.annunciated AS annunciated, a.value AS value, a.slot AS slot
FROM action a JOIN plant p ON p.plant = a.plant AND a.number > p.counted LEFT JOIN change c ON c.plant = a.plant AND c.number = a.number"""
INDEXES = ("CREATE INDEX change_number ON change (plant, number)",)
LIBRARY = "the library psycopg isn't installed (Debian: python3-psycopg)"


class StoreFault(Fault):
    """The database refused something, or isn't there; in one line."""


class Taken(StoreFault):
    """A row's key is there already: another archiver writes the same plant."""


def is_postgresql(place: str) -> bool:
    """Whether a database is one of PostgreSQL, by how it is named."""
    return place.startswith(("postgresql:", "postgres:")) or "dbname=" in place


class Store:
    """An open archive. A change is kept by `commit`, all of it or nothing."""

    def __init__(self, connection: Any, error: type[Exception], mark: str, place: str):
        self.connection, self.error, self.mark, self.place = connection, error, mark, place
        self.numbers = itertools.count()
        self.format = FORMAT

    @staticmethod
    def open(place: str, make: bool = False) -> "Store":
        """The archive at a place. One that isn't there is made where the caller says so."""
        store = open_postgresql(place) if is_postgresql(place) else open_sqlite(place, make)
        try:
            if not store.has_tables():
                if not make:
                    raise StoreFault(f"{store.place} is no archive")
                store.make_tables()
            store.commit()
            store.format = store.value("SELECT format FROM about")
            if store.format not in range(OLDEST, FORMAT + 1):
                raise StoreFault(
                    f"{store.place} is an archive of format {store.format}, and this tool knows {OLDEST} to {FORMAT}"
                )
            if make and store.format < FORMAT:
                store.renew()
        except BaseException:
            store.close()
            raise
        return store

    def __enter__(self) -> "Store":
        return self

    def __exit__(self, *_: object) -> None:
        self.close()

    def close(self) -> None:
        try:
            self.connection.close()
        except self.error:
            pass

    def fault(self, error: Exception) -> StoreFault:
        said = " ".join(str(error).split()) or type(error).__name__
        return StoreFault(f"{self.place}: {said}")

    def has_tables(self) -> bool:
        if self.mark == "?":
            return bool(self.value("SELECT COUNT(*) FROM sqlite_master WHERE name = 'about'"))
        return self.value("SELECT to_regclass('about')") is not None

    def make(self, tables: Iterable[str]) -> None:
        suffix = " WITHOUT ROWID" if self.mark == "?" else ""
        for table in tables:
            columns = TABLES[table]
            self.run(f"CREATE TABLE {table} ({columns}){suffix if 'PRIMARY KEY (' in columns else ''}")

    def make_tables(self) -> None:
        """Makes all tables or none, unless another archiver has made them meanwhile."""
        self.commit()
        if self.mark == "?":
            self.run("BEGIN IMMEDIATE")
            if self.has_tables():
                return
        self.make(TABLES)
        for statement in (HISTORY, *INDEXES):
            self.run(statement)
        self.run("INSERT INTO about VALUES (?)", (FORMAT,))

    def renew(self) -> None:
        """Brings an archive of an earlier format to the newest, all of it or nothing."""
        self.commit()
        if self.mark == "?":
            self.run("BEGIN IMMEDIATE")
        self.format = self.value("SELECT format FROM about")  # another archiver may have come before
        if self.format == OLDEST:
            self.renew_plants()
        if self.format < FORMAT:
            self.make(NEW)
            self.run("UPDATE about SET format = ?", (FORMAT,))
        self.commit()
        self.format = FORMAT

    def renew_plants(self) -> None:
        """Brings the plants and gaps of format 1 to what they are since."""
        counted = self.counted()
        self.run("DROP VIEW history")
        for table in ("plant", "gap"):
            self.run(f"ALTER TABLE {table} RENAME TO {table}_before")
        self.make(["plant", "gap"])
        for plant, *columns in list(self.rows("SELECT plant, name, device, areas, begins, shown FROM plant_before")):
            self.insert("plant", [(plant, *columns, counted[plant], None)])
        self.run("INSERT INTO gap SELECT plant, first, last, began, ended, why FROM gap_before")
        for table in ("plant", "gap"):
            self.run(f"DROP TABLE {table}_before")
        self.run(HISTORY)

    def more(self) -> tuple[str, ...]:
        """The tables that an archive of an earlier format hasn't."""
        return NEW if self.format == FORMAT else ()

    def counted(self) -> dict[int, int]:
        """Of each plant the last action that isn't counted, since it only brought what the plant before had, or was
        there before the archive."""
        if self.format == OLDEST:
            return {plant: count for name in self.names() for plant, count in self.brought(name)}
        return {plant: count for plant, count in self.rows("SELECT plant, counted FROM plant")}

    def names(self) -> list[str]:
        return [row[0] for row in self.rows("SELECT DISTINCT name FROM plant ORDER BY name")]

    def brought(self, name: str) -> Iterator[tuple[int, int]]:
        """Of each plant of a name the last action that only brought states of the plant before: those that were there
        at the first look, up to the moment at which that one ended."""
        ended: Optional[int] = None
        for plant, begins, shown in list(
            self.rows("SELECT plant, begins, shown FROM plant WHERE name = ? ORDER BY plant", (name,))
        ):
            query = (
                "SELECT number FROM action WHERE plant = ? AND number <= ? AND moment <= ? ORDER BY number DESC LIMIT 1"
            )
            last = None if ended is None else self.value(query, (plant, shown, ended))
            yield plant, max(begins, last or 0)
            latest = self.value("SELECT moment FROM action WHERE plant = ? ORDER BY number DESC LIMIT 1", (plant,))
            ended = ended if latest is None else latest

    def run(self, statement: str, values: Sequence[Any] = ()) -> None:
        self.execute(self.connection.cursor(), statement, values).close()

    def execute(self, cursor: Any, statement: str, values: Sequence[Any]) -> Any:
        try:
            cursor.execute(statement.replace("?", self.mark), tuple(values))
            return cursor
        except self.error as error:
            raise self.fault(error) from error

    def rows(self, statement: str, values: Sequence[Any] = ()) -> Iterator[tuple]:
        """The rows that a query gives, some at a time."""
        # PostgreSQL would give all rows at once to a cursor without a name
        cursor = (
            self.connection.cursor() if self.mark == "?" else self.connection.cursor(name=f"rows{next(self.numbers)}")
        )
        self.execute(cursor, statement, values)
        try:
            while rows := cursor.fetchmany(CHUNK):
                yield from rows
            cursor.close()
        except self.error as error:
            raise self.fault(error) from error

    def row(self, statement: str, values: Sequence[Any] = ()) -> Optional[tuple]:
        """The first row that a query gives."""
        return next(iter(list(self.rows(statement, values))), None)

    def value(self, statement: str, values: Sequence[Any] = ()) -> Any:
        """The first value of the first row."""
        row = self.row(statement, values)
        return None if row is None else row[0]

    def last_before(self, plant: int, moment: int) -> Optional[tuple[int, int]]:
        """The number and moment of a plant's last action before a moment. Moments never fall, so it is sought by
        halves."""
        query = "SELECT number, moment FROM action WHERE plant = ? AND number {} ? ORDER BY number {} LIMIT 1"
        first = self.row(query.format(">=", ""), (plant, 0))
        if first is None or first[1] >= moment:
            return None
        least: tuple[int, int] = first[0], first[1]
        number, at = known(self.row(query.format("<=", "DESC"), (plant, 2**62)))
        if at < moment:
            return number, at
        # the action at or before `low` is before the moment, the one at or behind `high` isn't
        low, high = least[0], number
        while high - low > 1:
            middle = (low + high) // 2
            number, at = known(self.row(query.format("<=", "DESC"), (plant, middle)))
            if at < moment:
                low, least = middle, (number, at)
            else:
                high = middle
        return least

    def insert(self, table: str, rows: Iterable[Sequence[Any]]) -> None:
        """Adds rows. One whose key is there already is a fault."""
        marks = ", ".join([self.mark] * COLUMNS[table])
        try:
            cursor = self.connection.cursor()
            cursor.executemany(f"INSERT INTO {table} VALUES ({marks})", list(rows))
            cursor.close()
        except self.error as error:
            if any(one.__name__ == "IntegrityError" for one in type(error).__mro__):
                raise Taken(f"{self.place}: another archiver writes the same plant") from error
            raise self.fault(error) from error

    def commit(self) -> None:
        try:
            self.connection.commit()
        except self.error as error:
            raise self.fault(error) from error

    def still(self) -> None:
        """From here on all queries see the archive of one moment."""
        self.commit()
        self.run("BEGIN" if self.mark == "?" else "SET TRANSACTION ISOLATION LEVEL REPEATABLE READ")


def is_there(place: str) -> bool:
    """Whether there may be an archive at a place: of a database that is asked by the network that isn't known."""
    return is_postgresql(place) or os.path.exists(place)


def open_sqlite(path: str, make: bool) -> Store:
    """The store in a file of SQLite; `StoreFault` says why there is none."""
    if not make and not os.path.isfile(path):
        raise StoreFault(f"{path}: no such file")
    try:
        connection = sqlite3.connect(path, timeout=PATIENCE)
    except sqlite3.Error as error:
        raise StoreFault(f"{path}: {error}") from error
    store = Store(connection, sqlite3.Error, "?", path)
    try:
        # Each commit is synced. Without a log beside the file whoever may read the file can, also while nobody writes
        # it.
        store.run("PRAGMA synchronous = FULL")
    except BaseException:
        store.close()
        raise
    return store


def open_postgresql(place: str) -> Store:
    try:
        import psycopg
    except ImportError:
        raise StoreFault(f"{LIBRARY}, and {hidden(place)} is a database of PostgreSQL") from None
    try:
        connection = psycopg.connect(place)
    except psycopg.Error as error:
        raise StoreFault(f"{hidden(place)}: {' '.join(str(error).split())}") from error
    return Store(connection, psycopg.Error, "%s", hidden(place))


def hidden(place: str) -> str:
    """A database's name without what may be secret in it."""
    return "PostgreSQL" if "password" in place or "@" in place else place
