"""Reports over any span of an archive: how often alarms came, floods, the most frequent, who was suppressed how long,
beside the bounds of ISA-18.2 and EEMUA 191.

    alm_reports DATABASE --name PLANT                                       prints the summary of all that is archived
    alm_reports DATABASE --name PLANT --from 2026-01-05 --to 2026-01-12     of a week
    alm_reports DATABASE --name PLANT --csv FOLDER                          each table as a file of CSV
    alm_reports DATABASE --name PLANT --png FOLDER --pdf FILE               as pages with plots

DATABASE is what alm_archive writes: a file of SQLite, or a database of PostgreSQL. Where it has one plant alone, --name
can be left out. The bounds are those of one operating position: --area K, once for each of its areas, reports one.
With --details FILE setpoints that were given are in the operator's unit, which is a column then.
Pages need matplotlib (Debian: python3-matplotlib). In CSV moments are seconds of the plant's clock, and shares parts of
1.
"""
import argparse
import csv
import os
from typing import Optional

from .arguments import Parser
from .details_file import add_details, load_details
from .ending import Fault, end_of
from .figures import Figures, in_words
from .life import read_life
from .moments import moment_of
from .store import Store, StoreFault

LIBRARY = "pages need the library matplotlib, which isn't installed (Debian: python3-matplotlib)"


class NoPages(Fault):
    """The library for pages isn't here."""


def only_name(store: Store, name: Optional[str]) -> str:
    """The plant's name; where none was given, the only one that there is."""
    names = [row[0] for row in store.rows("SELECT DISTINCT name FROM plant ORDER BY name")]
    if name is not None or len(names) == 1:
        return name or names[0]
    raise StoreFault(f"{store.place} has {len(names)} plants, so --name says which: {', '.join(names)}")


def write_csv(figures: Figures, folder: str) -> None:
    """Each table as a file."""
    os.makedirs(folder, exist_ok=True)
    for table in figures.tables():
        with open(os.path.join(folder, f"{table.name}.csv"), "w", encoding="utf-8", newline="") as file:
            writer = csv.writer(file, lineterminator="\n")
            writer.writerow(table.columns)
            writer.writerows(table.rows)


def write_pages(figures: Figures, folder: Optional[str], file: Optional[str]) -> None:
    """Pages with plots."""
    try:
        from . import pages
    except ImportError:
        raise NoPages(LIBRARY) from None
    pages.write(figures, folder, file)


def report(chosen: argparse.Namespace) -> None:
    """Writes what the arguments ask for, and prints the figures."""
    details = load_details(chosen.details) if chosen.details else None
    with Store.open(chosen.database) as store:
        life = read_life(
            store, only_name(store, chosen.name), chosen.begin, chosen.end, set(chosen.areas) if chosen.areas else None
        )
    figures = Figures(life, details)
    if chosen.csv:
        write_csv(figures, chosen.csv)
    if chosen.png or chosen.pdf:
        write_pages(figures, chosen.png, chosen.pdf)
    print("\n".join(in_words(figures)))


def main() -> None:
    words = Parser("alm_reports", __doc__)
    words.add_argument("database", metavar="DATABASE", help="a file of SQLite, or a database of PostgreSQL")
    words.add_argument("--name", metavar="PLANT", help="the plant's name in the archive")
    words.add_argument(
        "--from",
        dest="begin",
        type=moment_of,
        metavar="MOMENT",
        help="the span's first moment: a date, or seconds of the plant's clock",
    )
    words.add_argument("--to", dest="end", type=moment_of, metavar="MOMENT", help="the first moment behind the span")
    words.add_argument(
        "--area",
        dest="areas",
        type=int,
        action="append",
        metavar="K",
        help="report the operating position of this area; of several areas, once for each",
    )
    words.add_argument("--csv", metavar="FOLDER", help="write each table as a file of CSV")
    words.add_argument("--png", metavar="FOLDER", help="write the pages as images")
    words.add_argument("--pdf", metavar="FILE", help="write the pages as one file")
    add_details(words)
    chosen = words.parse_args()
    end_of("alm_reports", lambda: report(chosen))


if __name__ == "__main__":
    main()
