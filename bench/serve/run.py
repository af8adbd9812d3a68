#!/usr/bin/env python3
"""Servers beside each other, in turns, under the loads that users bring about.

    bench/serve/run.py [NAME=PROGRAM..] [gather] [plain] [redis] [sqlite] [postgres] [--version 03] [--turns 3]
                       [--seconds 2] [--loads WORD,..] [--largest] [--disk BYTES] [--clock] [--picture FILE]

PROGRAM is a build of alm_server, `plain` the server in C beside this file, `gather` the same where it waits for those
whom it answered; without names it is this repository's build beside plain. The others are what Debian has of them, each
set so that an answer is durable (others.py); they take the closed loads alone, redis apart_18 too. With --version each
PROGRAM runs as NAME_VERSION too, before it, over a device of that version. The last one is what the others are compared
with. Each fdatasync sleeps 0.2 ms (sync.c), and with --disk longer, a microsecond for so many
bytes. Servers and clients run under one scheduling class (SCHED_RR), each load of each server on a new device, the
servers in turn, another of them first in each turn: who comes behind the last one of the turn before is some 2 %
slower. The same program under two names shows what the order and chance make. A turn of which the host stole more than
5 % is made again, twice at most.

Loads (--loads takes names, and beginnings of names): closed_1, closed_4, closed_18 clients with one request out;
closed_18_64 with 64; apart_18, closed_18 with a thread for each client, where one thread serves all in the others;
open_CLIENTS_RATE_regular and _random, requests at their own times, so many a second in all; idle, 18 connections that
say nothing, whose cpu is per cent of a core. --largest: 16,384 alarms in 64 areas and segments of 452,651 bytes, else
16 alarms and segments of 16 MiB.

--clock notes when each call of a server begins and ends (clock.c), and says from the end of a batch's last sync how
long it takes to the next batch's write, in tenths, and to the first and last reply and request in between (rounds.py).
--picture draws the medians as SVG.

A line for each load and server: medians of the turns (the memory, the microseconds of the processor that the client
itself took for a request, and the steal too); beside the last server's, requests a second, p50, p99 and the processor's
time a request; beside p50 of its own closed_1, p50 and p99. Each turn stands on standard error.
"""
import argparse
import collections
import math
import os
import pathlib
import shutil
import statistics
import subprocess
import sys
import tempfile
import time
from dataclasses import dataclass

import picture
import rounds
from others import Others

HERE = pathlib.Path(__file__).resolve().parent
TOP = HERE.parent.parent
BUILT = TOP / "crates/alm_server/out/alm_server"
STEAL_LIMIT, TRIES = 5.0, 3
CLASS = ["chrt", "-r", "10"]
OTHERS = ("redis", "sqlite", "postgres")
FIGURES = ("rate", "p50", "p99", "greatest", "late", "cpu", "batch", "memory", "client", "steal")
LOADS = {
    "closed_1": "closed 1 1",
    "closed_4": "closed 4 1",
    "closed_18": "closed 18 1",
    "closed_18_64": "closed 18 64",
    "apart_18": "closed 18 1 18",
    **{
        f"open_{clients}_{rate}_{kind}": f"open {clients} {rate} {kind}"
        for kind in ("regular", "random")
        for clients, rates in ((1, (1000, 2000, 5500, 10_000, 20_000)), (18, (10_000, 30_000, 60_000)))
        for rate in rates
    },
    "idle": "idle",
}


def table(largest: bool) -> str:
    """The plant: each console has an alarm of its own, at its slot's number."""
    size, areas, alarms = (7_483_711, 64, 16_384) if largest else (40_000_000, 1, 16)
    first = 'kind = "high"\nsetpoint = 800\ndeadband = 10\npriority = 1\narea = 0\ntag = "FEED"\n'
    others = (
        f'kind = "high"\nsetpoint = 50\npriority = {1 + alarm % 4}\narea = {alarm % areas}\ntag = "T-{alarm}"\n'
        for alarm in range(1, alarms)
    )
    return f"size = {size}\nareas = {areas}\n" + "".join(f"\n[[alarm]]\n{alarm}" for alarm in (first, *others))


@dataclass(frozen=True)
class Program:
    """A program's path, or the name of another server; and the version of its device, if not what `format` makes."""

    path: str
    version: str = ""

    def format(self) -> list[str]:
        """The words that make a device of the plant."""
        return [self.path, "format", *(["--version", self.version] if self.version else [])]


def programs_of(words: list[str], version: str) -> dict[str, Program]:
    """The programs by their names. With a version each that is a path is there twice."""
    programs = {}
    for name, _, path in (word.partition("=") for word in words):
        at = str(pathlib.Path(path).resolve()) if path else name
        if path and version:
            programs[f"{name}_{version}"] = Program(at, version)
        programs[name] = Program(at)
    return programs


def stolen() -> tuple[int, int]:
    """Ticks that the host stole so far, and all ticks."""
    with open("/proc/stat", encoding="ascii") as file:
        ticks = list(map(int, file.readline().split()[1:9]))
    return ticks[7], sum(ticks)


@dataclass
class Bench:
    """A folder on a memory file system with what was compiled, and the port of slot 0."""

    folder: pathlib.Path
    port: int
    environment: dict[str, str]

    def compile(self, largest: bool, programs: list[str]) -> None:
        sources = {
            "client": ["client.c", "-lm", "-pthread"],
            "plain": ["plain.c", "-pthread"],
            "sync.so": ["sync.c", "clock.c", "-shared", "-fPIC"],
        }
        if "sqlite" in programs:
            sources["sqlite"] = ["sqlite.c", "-pthread", "-lsqlite3"]
        for name, words in sources.items():
            subprocess.run(["cc", "-O2", "-o", self.folder / name, *words], check=True, cwd=HERE)
        (self.folder / "plant.toml").write_text(table(largest), encoding="ascii")

    def words(self, program: Program) -> list[str]:
        """The words that start a server on a new device."""
        device = self.folder / "device"
        device.unlink(missing_ok=True)
        if program.path in ("plain", "gather"):
            return [str(self.folder / "plain"), str(device), str(self.port), program.path]
        fresh = self.folder / f"fresh{abs(hash(program))}"
        if not fresh.exists():
            words = [*program.format(), str(fresh), str(self.folder / "plant.toml")]
            subprocess.run(words, check=True, stdout=subprocess.DEVNULL)
        shutil.copyfile(fresh, device)
        return [program.path, "serve", str(device), "--port", str(self.port)]

    def syncs(self) -> int:
        return int.from_bytes((self.folder / "count").read_bytes(), "little")

    def client(self, verb: str, seconds: float, *words: str) -> list[str]:
        return [*CLASS, str(self.folder / "client"), str(self.port), verb, str(seconds), *words]

    def measure(self, program: Program, load: str, seconds: float) -> dict[str, float]:
        """A turn of a load."""
        for left in ("count", "clock"):
            (self.folder / left).unlink(missing_ok=True)
        if program.path in OTHERS:
            return self.other(program.path, load.split(), seconds)
        with Server(self, self.words(program)) as server:
            before, took = stolen(), self.idle if load == "idle" else self.load
            figures = took(server, load.split(), seconds)
            after = stolen()
            return {
                **figures,
                **self.rounds(),
                "memory": server.memory(),
                "steal": 100 * (after[0] - before[0]) / max(1, after[1] - before[1]),
            }

    def rounds(self) -> dict[str, float]:
        """What the clock says, if one was asked for."""
        clock = self.folder / "clock"
        return rounds.figures_of(clock) if clock.exists() else {}

    def preloaded(self) -> dict[str, str]:
        """What a server's environment has more."""
        count = str(self.folder / "count")
        return {"LD_PRELOAD": str(self.folder / "sync.so"), "SYNC_COUNT": count, **self.environment}

    def other(self, name: str, load: list[str], seconds: float) -> dict[str, float]:
        """A turn of a store that others have made."""
        before = stolen()
        others = Others(self.folder, self.port, {**os.environ, **self.preloaded()})
        figures = others.measure(name, load[1:], seconds)
        after = stolen()
        steal = 100 * (after[0] - before[0]) / max(1, after[1] - before[1])
        return {**figures, **(self.rounds() if name == "redis" else {}), "steal": steal}

    def idle(self, server: "Server", _: list[str], seconds: float) -> dict[str, float]:
        """Per cent of a core, from a second behind the connections on."""
        with subprocess.Popen(self.client("idle", seconds + 3)):
            time.sleep(1)
            before = server.cpu()
            time.sleep(seconds)
            return {"cpu": 100 * (server.cpu() - before) / seconds}

    def load(self, server: "Server", load: list[str], seconds: float) -> dict[str, float]:
        """What the client prints, and microseconds of the processor and actions a batch."""
        syncs, cpu = self.syncs(), server.cpu()
        run = subprocess.run(self.client(load[0], seconds, *load[1:]), stdout=subprocess.PIPE, text=True)
        if run.returncode:  # the server can't keep up, and the client has said so
            figures = ("p50", "p99", "greatest", "late", "cpu", "batch", "client")
            return {"rate": 0.0, **dict.fromkeys(figures, math.inf)}
        cpu, syncs = server.cpu() - cpu, self.syncs() - syncs
        rate, p50, p99, greatest, late, requests, accepted, client = map(float, run.stdout.split())
        if accepted != requests:
            sys.exit(f"{load}: {accepted} of {requests} accepted")
        return {
            "rate": rate,
            "p50": p50,
            "p99": p99,
            "greatest": greatest,
            "late": late,
            "cpu": 1e6 * cpu / requests,
            "batch": 2 * accepted / max(1, syncs),
            "client": client,
        }


class Server:
    """A server that runs."""

    def __init__(self, bench: Bench, words: list[str]):
        self.process = subprocess.Popen(
            [*CLASS, "env", *(f"{name}={value}" for name, value in bench.preloaded().items()), *words],
            stdout=subprocess.PIPE,
        )

    def __enter__(self) -> "Server":
        if not self.process.stdout.readline().startswith(b"serving"):
            sys.exit("the server doesn't serve")
        return self

    def __exit__(self, *_: object) -> None:
        self.process.kill()
        self.process.wait()
        self.process.stdout.close()

    def cpu(self) -> float:
        """Seconds of a processor that its threads took so far."""
        tasks = pathlib.Path(f"/proc/{self.process.pid}/task").iterdir()
        return sum(int((task / "schedstat").read_text().split()[0]) for task in tasks) / 1e9

    def memory(self) -> float:
        """MB of 1,000 KB at its height."""
        status = pathlib.Path(f"/proc/{self.process.pid}/status").read_text()
        return int(status.split("VmHWM:")[1].split()[0]) / 1000


def turn(bench: Bench, name: str, program: Program, load: str, seconds: float) -> dict[str, float]:
    """A turn, made again where the host stole much of it."""
    for _ in range(TRIES):
        figures = bench.measure(program, LOADS[load], seconds)
        print(
            f"{load:26} {name:8}",
            *(f"{key} {value:.1f}" for key, value in figures.items()),
            file=sys.stderr,
            flush=True,
        )
        if figures["steal"] <= STEAL_LIMIT:
            break
    return figures


Turns = dict[tuple[str, str], list[dict[str, float]]]


def medians_of(turns: Turns) -> dict[tuple[str, str], dict[str, float]]:
    """The medians of all turns, by load and server."""
    return {
        key: {figure: statistics.median(made[figure] for made in all_made if figure in made) for figure in all_made[-1]}
        for key, all_made in turns.items()
    }


def print_table(names: list[str], turns: Turns) -> None:
    """The medians, and what they are beside others."""
    medians = medians_of(turns)
    print(
        f"{'load':26} {'server':8} {'a second':>9} {'p50 us':>7} {'p99 us':>7} {'greatest':>8} {'late99':>6}"
        f" {'cpu us':>7} {'a batch':>7} {'MB':>5} {'client':>6} {'steal%':>6} |"
        f" {'rate':>5} {'p50':>5} {'p99':>5} {'cpu':>5} beside {names[-1]} | {'p50':>5} {'p99':>6} beside a lone p50"
    )
    for (load, name), figures in medians.items():
        cells = [
            f"{figures[figure]:{width}.{places}f}" if figure in figures else "-".rjust(width)
            for figure, width, places in zip(FIGURES, (9, 7, 7, 8, 6, 7, 7, 5, 6, 6), (0, 0, 0, 0, 0, 2, 1, 1, 1, 1))
        ]
        other, lone = medians.get((load, names[-1])), medians.get(("closed_1", name))
        cells += [
            "|",
            *(ratio(figures, figure, other, figure, 5) for figure in ("rate", "p50", "p99", "cpu")),
            " " * (7 + len(names[-1])),
            "|",
        ]
        cells += [ratio(figures, "p50", lone, "p50", 5), ratio(figures, "p99", lone, "p50", 6)]
        print(f"{load:26} {name:8}", *cells)


def print_rounds(turns: Turns) -> None:
    """The medians of what the clock says."""
    print(f"\n{'load':26} {'server':8}", *(f"{figure:>7}" for figure in rounds.FIGURES))
    for (load, name), made in turns.items():
        if noted := [figures for figures in made if "gap" in figures]:
            cells = (statistics.median(figures[figure] for figures in noted) for figure in rounds.FIGURES)
            print(f"{load:26} {name:8}", *(f"{cell:7.0f}" for cell in cells))


def ratio(figures: dict[str, float], figure: str, others: dict[str, float] | None, other: str, width: int) -> str:
    if not others or not others.get(other) or figure not in figures:
        return "-".rjust(width)
    return f"{figures[figure] / others[other]:{width}.2f}"


def main() -> None:
    words = argparse.ArgumentParser(description=__doc__, formatter_class=argparse.RawDescriptionHelpFormatter)
    words.add_argument("servers", nargs="*", default=[f"ours={BUILT}", "plain"], help="NAME=PROGRAM, or a name")
    words.add_argument("--version", default="", help="of a second device of each PROGRAM: 03")
    words.add_argument("--turns", type=int, default=3)
    words.add_argument("--seconds", type=float, default=2.0, help="of a load")
    words.add_argument("--loads", default="", help="names of loads, or their beginnings, with commas between")
    words.add_argument("--largest", action="store_true", help="the largest plant, with the recommended segment")
    words.add_argument("--disk", type=int, default=0, help="bytes that the disk takes in a microsecond; 0: any")
    words.add_argument("--port", type=int, default=25_000)
    words.add_argument("--clock", action="store_true", help="where the time of a round goes")
    words.add_argument("--picture", type=pathlib.Path, help="the file of a picture, SVG")
    chosen = words.parse_args()
    programs = programs_of(chosen.servers, chosen.version)
    loads = [
        load
        for load in LOADS
        if any(load == word if word in LOADS else load.startswith(word) for word in chosen.loads.split(","))
    ]
    turns = collections.defaultdict(list)
    with tempfile.TemporaryDirectory(prefix="serve", dir="/dev/shm") as folder:
        environment = {"SYNC_BYTES_A_US": str(chosen.disk)}
        if chosen.clock:
            environment["SYNC_CLOCK"] = f"{folder}/clock"
        bench = Bench(pathlib.Path(folder), chosen.port, environment)
        bench.compile(chosen.largest, list(programs))
        began, names = time.monotonic(), list(programs)
        for number in range(chosen.turns):
            for load in loads:
                for name in names[number % len(names) :] + names[: number % len(names)]:
                    if name in OTHERS and not load.startswith("closed") and (name, load) != ("redis", "apart_18"):
                        continue
                    turns[load, name].append(turn(bench, name, programs[name], load, chosen.seconds))
            print(f"turn {number + 1} of {chosen.turns}, {time.monotonic() - began:.0f} s", file=sys.stderr, flush=True)
    print_table(list(programs), turns)
    if chosen.clock:
        print_rounds(turns)
    if chosen.picture:
        chosen.picture.write_text(picture.drawn(medians_of(turns)), encoding="utf-8")


if __name__ == "__main__":
    main()
