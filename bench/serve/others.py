"""Stores that others have made, under the loads of run.py: Redis, SQLite and PostgreSQL, each so that an answer is
durable.

Their syncs take as long as ours: sync.c is preloaded into them too. Each measure returns the figures of a turn as
run.py has them, but for what a store doesn't tell.
"""
import os
import pathlib
import pwd
import shutil
import socket
import subprocess
import sys
import time
from collections.abc import Iterator
from dataclasses import dataclass

CLASS = ["chrt", "-r", "10"]
USER = "postgres"  # PostgreSQL doesn't run as root
# What a client of pgbench does: one row, or so many in a pipeline, which is one transaction.
ROW = "INSERT INTO action VALUES (:client_id, 1);\n"


def tool(name: str) -> str:
    """The path of one of PostgreSQL's programs, the newest that is there."""
    found = shutil.which(name) or max(map(str, pathlib.Path("/usr/lib/postgresql").glob(f"*/bin/{name}")), default="")
    if not found:
        sys.exit(f"{name} isn't there: PostgreSQL of Debian has it")
    return found


def family(parent: int) -> Iterator[int]:
    """A process, and those below it."""
    below: dict[int, list[int]] = {}
    for stat in pathlib.Path("/proc").glob("[0-9]*/stat"):
        try:
            fields = stat.read_text(encoding="utf-8", errors="replace").rpartition(")")[2].split()
        except OSError:
            continue
        below.setdefault(int(fields[1]), []).append(int(stat.parent.name))
    left = [parent]
    while left:
        one = left.pop()
        yield one
        left += below.get(one, [])


def cpu_of(process: int) -> float:
    """Seconds of a processor that a process and those below it took so far."""
    ticks = 0
    for one in family(process):
        try:
            fields = pathlib.Path(f"/proc/{one}/stat").read_text(encoding="utf-8").rpartition(")")[2].split()
        except OSError:
            continue
        ticks += sum(map(int, fields[11:15]))  # its own, and those of the children that it has seen end
    return ticks / os.sysconf("SC_CLK_TCK")


def await_port(port: int, process: subprocess.Popen[bytes]) -> None:
    """Waits until somebody listens there."""
    for _ in range(200):
        if process.poll() is not None:
            sys.exit(f"{process.args}: ended with {process.returncode}")
        try:
            socket.create_connection(("127.0.0.1", port), timeout=1).close()
            return
        except OSError:
            time.sleep(0.05)
    sys.exit(f"{process.args}: nobody listens at port {port}")


def figures_of(line: str, cpu: float) -> dict[str, float]:
    """The figures that client.c and sqlite.c print, with seconds of the processor in all."""
    rate, p50, p99, greatest, late, requests, *_ = map(float, line.split())
    return {
        "rate": rate,
        "p50": p50,
        "p99": p99,
        "greatest": greatest,
        "late": late,
        "cpu": 1e6 * cpu / max(1.0, requests),
    }


@dataclass
class Others:
    """Where they run: a folder on a memory file system with what is compiled there, a port, and the environment of
    sync.c."""

    folder: pathlib.Path
    port: int
    environment: dict[str, str]

    def measure(self, name: str, load: list[str], seconds: float) -> dict[str, float]:
        """A turn of a store: so many clients, each with so many requests out, and for redis the client's threads."""
        room = self.folder / f"{name}.room"
        shutil.rmtree(room, ignore_errors=True)
        room.mkdir()
        room.chmod(0o777)
        if name == "redis":
            return self.redis(room, load, seconds)
        return {"sqlite": self.sqlite, "postgres": self.postgres}[name](room, int(load[0]), int(load[1]), seconds)

    def redis(self, room: pathlib.Path, load: list[str], seconds: float) -> dict[str, float]:
        """`appendfsync always`: what came together is synced once, and then answered."""
        words = ["redis-server", "--port", str(self.port), "--dir", str(room), "--appendonly", "yes"]
        words += ["--appendfsync", "always", "--save", "", "--bind", "127.0.0.1"]
        with subprocess.Popen([*CLASS, *words], env=self.environment, stdout=subprocess.DEVNULL) as server:
            try:
                await_port(self.port, server)
                before = cpu_of(server.pid)
                words = [str(self.folder / "client"), str(self.port), "closed", str(seconds), *load, "redis"]
                printed = subprocess.run([*CLASS, *words], stdout=subprocess.PIPE, text=True, check=True).stdout
                client = float(printed.split()[-1])
                return {**figures_of(printed, cpu_of(server.pid) - before), "client": client}
            finally:
                server.kill()

    def sqlite(self, room: pathlib.Path, clients: int, window: int, seconds: float) -> dict[str, float]:
        """WAL and `synchronous=FULL`, a library in the process of its clients. So many rows a transaction."""
        words = [*CLASS, str(self.folder / "sqlite"), str(room / "base"), str(seconds), str(clients), str(window)]
        printed = subprocess.run(words, env=self.environment, stdout=subprocess.PIPE, text=True, check=True).stdout
        *_, requests, _, nanoseconds = map(float, printed.split())
        return figures_of(printed, requests * nanoseconds / 1e9)

    def postgres(self, room: pathlib.Path, clients: int, window: int, seconds: float) -> dict[str, float]:
        """`synchronous_commit=on`, asked by pgbench. So many rows a transaction."""
        data = self.folder / "postgres.data"
        as_user = ["runuser", "-u", USER, "--"] if os.geteuid() == 0 else []
        if not data.exists():
            data.mkdir()
            if as_user:
                owner = pwd.getpwnam(USER)
                os.chown(data, owner.pw_uid, owner.pw_gid)
                os.chmod(self.folder, 0o755)
            made = [*as_user, tool("initdb"), "-D", str(data), "-A", "trust", "--no-sync"]
            subprocess.run(made, check=True, stdout=subprocess.DEVNULL)
        count = pathlib.Path(self.environment["SYNC_COUNT"])
        count.touch()
        count.chmod(0o666)
        server = [tool("postgres"), "-D", str(data), "-p", str(self.port), "-k", str(room)]
        for setting in ("synchronous_commit=on", "fsync=on", "wal_sync_method=fdatasync", "max_connections=64"):
            server += ["-c", setting]
        preloaded = {"LD_PRELOAD", "SYNC_COUNT", "SYNC_BYTES_A_US"} & self.environment.keys()
        env = [f"{name}={self.environment[name]}" for name in sorted(preloaded)]
        with subprocess.Popen(
            [*CLASS, *as_user, "env", *env, *server], stdout=subprocess.DEVNULL, stderr=subprocess.DEVNULL
        ) as process:
            try:
                await_port(self.port, process)
                return self.bench(process, room, clients, window, seconds)
            finally:
                process.terminate()
                process.wait()

    def bench(
        self, process: subprocess.Popen[bytes], room: pathlib.Path, clients: int, window: int, seconds: float
    ) -> dict[str, float]:
        """What pgbench sees of a server that runs."""
        script = room / "script.sql"
        script.write_text(ROW if window == 1 else f"\\startpipeline\n{ROW * window}\\endpipeline\n", encoding="ascii")
        place = ["-h", "127.0.0.1", "-p", str(self.port), "-U", USER]
        table = "DROP TABLE IF EXISTS action; CREATE TABLE action (client integer, serial bigint)"
        asked = [tool("psql"), *place, "-q", "-c", "SET client_min_messages=error", "-c", table, USER]
        subprocess.run(asked, check=True)
        before = cpu_of(process.pid)
        words = [tool("pgbench"), *place, "-n", "-M", "prepared", "-c", str(clients), "-j", str(min(clients, 4))]
        words += ["-T", str(max(1, round(seconds))), "-f", str(script), "-l", "--log-prefix", str(room / "log"), USER]
        subprocess.run([*CLASS, *words], check=True, stdout=subprocess.DEVNULL, stderr=subprocess.DEVNULL)
        cpu = cpu_of(process.pid) - before
        return self.logged(room, window, cpu)

    @staticmethod
    def logged(room: pathlib.Path, window: int, cpu: float) -> dict[str, float]:
        """The figures of pgbench's log: a line for each transaction, with its microseconds and when it ended."""
        took: list[tuple[float, float]] = []
        for log in room.glob("log*"):
            for line in log.read_text(encoding="ascii").splitlines():
                _, _, microseconds, _, second, fraction, *_ = line.split()
                took.append((int(second) + int(fraction) / 1e6, float(microseconds)))
        took.sort()
        begin, end = took[0][0], took[-1][0]
        counted = sorted(each for moment, each in took if moment >= begin + (end - begin) / 10)
        return {
            "rate": window * len(counted) / (0.9 * (end - begin)),
            "p50": counted[len(counted) // 2],
            "p99": counted[len(counted) * 99 // 100],
            "greatest": counted[-1],
            "cpu": 1e6 * cpu / (window * len(took)),
        }
