"""What is done with an archive beside archiving: its plants are listed, and what is older than a moment is taken away.
alm_archive has the commands."""
import argparse

from .known import known
from .store import Store, StoreFault
from .moments import date

PRUNED = "pruned"


def list_plants(chosen: argparse.Namespace) -> None:
    """Prints each plant, its actions, and its gaps."""
    with Store.open(chosen.database) as store:
        store.still()
        counted = store.counted()
        for plant, name in list(store.rows("SELECT plant, name FROM plant ORDER BY plant")):
            counts = "SELECT MIN(number), MAX(number), MIN(moment), MAX(moment), COUNT(*) FROM action WHERE plant = ?"
            first, last, began, ended, count = known(store.row(counts, (plant,)))
            of_them = "plant = ? AND number > ?", (plant, counted[plant])
            annunciations = store.value(
                f"SELECT COUNT(*) FROM change WHERE {of_them[0]} AND annunciated = 1", of_them[1]
            )
            brought = count - store.value(f"SELECT COUNT(*) FROM action WHERE {of_them[0]}", of_them[1])
            print(
                f"{name} plant {plant}: {count} actions, {first or '-'} to {last or '-'}, {date(began)} to"
                f" {date(ended)}, {annunciations} annunciations"
                + (f"; {brought} actions only brought the states of the plant before" if brought else "")
            )
            for first, last, began, ended, why in store.rows(
                "SELECT first, last, began, ended, why FROM gap WHERE plant = ? ORDER BY first", (plant,)
            ):
                print(
                    f"  gap: actions {first} {'and later' if last is None else f'to {last}'}, {date(began)} to"
                    f" {date(ended)}: {why}"
                )


def prune(chosen: argparse.Namespace) -> None:
    """Takes away what is older than a moment. The state of each alarm there is kept as one that was found."""
    with Store.open(chosen.database) as store:
        plants = [row[0] for row in store.rows("SELECT plant FROM plant WHERE name = ? ORDER BY plant", (chosen.name,))]
        if not plants:
            raise StoreFault(f"{store.place} has no plant of the name {chosen.name}")
        gone = 0
        for plant in plants:
            last = store.last_before(plant, chosen.before)
            if last:
                gone += prune_plant(store, plant, *last)
            if plant != plants[-1] and not store.value("SELECT COUNT(*) FROM action WHERE plant = ?", (plant,)):
                for table in ("plant", "alarm", "change", "flood", "gap", *store.more()):
                    store.run(f"DELETE FROM {table} WHERE plant = ?", (plant,))
        store.commit()
        print(f"{chosen.name}: {gone} actions before {date(chosen.before)} pruned")


def prune_plant(store: Store, plant: int, last: int, moment: int) -> int:
    """Takes away the actions of a plant up to a number; how many they were."""
    count = store.value("SELECT COUNT(*) FROM action WHERE plant = ? AND number <= ?", (plant, last))
    states = list(
        store.rows(
            (
                "SELECT c.alarm, c.tag, c.priority, c.area, c.after, c.flags, c.since FROM change c JOIN (SELECT alarm,"
                " MAX(number) AS number FROM change WHERE plant = ? AND number <= ? GROUP BY alarm) l ON l.alarm ="
                " c.alarm AND l.number = c.number WHERE c.plant = ?"
            ),
            (plant, last, plant),
        )
    )
    floods = list(
        store.rows(
            (
                "SELECT f.area, f.flooded, f.annunciations FROM flood f JOIN (SELECT area, MAX(number) AS number FROM"
                " flood WHERE plant = ? AND number <= ? GROUP BY area) l ON l.area = f.area AND l.number = f.number"
                " WHERE f.plant = ?"
            ),
            (plant, last, plant),
        )
    )
    for table in ("action", "change", "flood"):
        store.run(f"DELETE FROM {table} WHERE plant = ? AND number <= ?", (plant, last))
    if "denied" in store.more():
        store.run("DELETE FROM denied WHERE plant = ? AND number <= ?", (plant, last))
    store.run("DELETE FROM gap WHERE plant = ? AND last <= ?", (plant, last))
    store.insert(
        "change",
        [
            (plant, alarm, last, moment, tag, priority, area, None, after, flags, 0, since)
            for alarm, tag, priority, area, after, flags, since in states
        ],
    )
    store.insert(
        "flood", [(plant, area, last, moment, flooded, annunciations) for area, flooded, annunciations in floods]
    )
    store.insert("gap", [(plant, 1, last, None, moment, PRUNED)])
    return count
