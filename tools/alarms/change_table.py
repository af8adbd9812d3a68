"""Brings the states of a stopped device onto one with another table.

    alm_server format NEW NEW.toml
    alm_change_table OLD NEW.toml | alm_server desk NEW

It asks `alm_server export OLD` and `alm_server show OLD`, and prints desk lines for a device that was formatted with
NEW.toml. For every tag that both tables have they bring the condition, the acknowledgement, what is left of a shelving,
the flags, the priority and the setpoint. Annunciated alarms come in the order of the old lists. After the lines `show
NEW` says of these alarms what `show OLD` said.

If the new table can't hold something, as a shelving longer than its max_shelve, standard error says so, and the status
is 4: all else is brought. With any other status but 0 nothing is.

Not brought: the count of actions, which begins anew; the moments of annunciations, so FLOOD, STALE and CHATTER begin
without them; the order within LIST S. With --new-values priorities and setpoints are those of the new table.

The new plant has the old one's clock. A clock that once ran ahead by mistake is set back by --now MOMENT, in seconds
since 1970: what is left of each shelving stays as long. The table may be the old one then:

    alm_server export OLD > OLD.toml
    alm_server format NEW OLD.toml
    alm_change_table OLD OLD.toml --now $(date +%s) | alm_server desk NEW
"""
import argparse
import pathlib
import subprocess

from .arguments import Parser
from .ending import Fault, end_of, sayer
from .plant_lines import KEPT_BACK, TableChange, StoppedPlant, read_plant
from .table_file import load_table

PROGRAM = pathlib.Path(__file__).resolve().parents[2] / "alm_server"
# A plant's clock stands below this.
MOMENTS = 2**40


def load_plant(program: str, device: str) -> StoppedPlant:
    texts = [
        subprocess.run([program, word, device], stdout=subprocess.PIPE, text=True, check=True).stdout
        for word in ("export", "show")
    ]
    return read_plant(*texts)


def moment(text: str) -> int:
    """A moment of a plant's clock, in an argument."""
    if not text.isdecimal() or int(text) >= MOMENTS:
        raise argparse.ArgumentTypeError(f"{text} isn't a moment from 0 to {MOMENTS - 1}")
    return int(text)


say = sayer("change_table")


def change_table(chosen: argparse.Namespace) -> int:
    """Prints the lines that bring the old plant onto the new table, and says what they don't bring; the status."""
    try:
        change = TableChange(
            load_plant(chosen.program, chosen.old), load_table(chosen.table), chosen.new_values, chosen.now
        )
    except subprocess.CalledProcessError as error:
        return error.returncode
    except ValueError as error:
        raise Fault(str(error)) from None
    print("".join(f"{line}\n" for line in change.lines()), end="")
    for line in change.report():
        say(line)
    return KEPT_BACK if change.kept_back else 0


def main() -> None:
    words = Parser("alm_change_table", __doc__)
    words.add_argument("old", metavar="OLD", help="the stopped device")
    words.add_argument("table", metavar="NEW.toml", help="the new table file")
    words.add_argument("--program", default=str(PROGRAM) if PROGRAM.exists() else "alm_server", help="alm_server")
    words.add_argument("--new-values", action="store_true", help="priorities and setpoints as the new table has them")
    words.add_argument(
        "--now", type=moment, metavar="MOMENT", help="the new plant's clock; the old plant's where it is left out"
    )
    chosen = words.parse_args()
    end_of("change_table", lambda: change_table(chosen))


if __name__ == "__main__":
    main()
