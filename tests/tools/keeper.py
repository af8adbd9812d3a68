"""Runs a feed as its unit does: it is started again whenever it ends, its alarm is set as it ends, and one that says
nothing for too long is killed. An end that nobody asked for is a fault.
"""
import contextlib
import os
import re
import signal
import socket
import subprocess
import threading
import time
import urllib.request
from pathlib import Path
from typing import Optional

from lib.tools import await_true, slowness, started

from check_mqtt import python_with_paho
from lib.places import AT_TOOLS
from lib.program import Wrong

# Seconds of WatchdogSec= and RestartSec=.
SAYS_WITHIN, RESTART = 4.0, 0.2
PAGE = re.compile(r"http://\S+/metrics")


class Keeper(threading.Thread):
    """A feed that is kept running. `words` are its options, `own` its watching alarm, `tools` where its code is."""

    def __init__(self, folder: str, tools: Path, own: str, words: list[str], more: list[str]):
        super().__init__(daemon=True)
        self.words = [python_with_paho(), str(tools / "alm_feed"), *words, "--watch", own]
        self.more, self.env = more, {**AT_TOOLS, "PYTHONPATH": str(tools)}
        self.log_path, self.socket_path = os.path.join(folder, "feed.log"), os.path.join(folder, "notify")
        self.log, self.ended, self.starts = open(self.log_path, "ab"), False, 0
        self.let_run, self.is_down = threading.Event(), threading.Event()
        self.let_run.set()
        self.fault: Optional[str] = None
        self.begin()

    def begin(self) -> None:
        """Starts the feed. By MQTT 3.1.1, each second time, a broker keeps little for a client."""
        with contextlib.suppress(FileNotFoundError):
            os.remove(self.socket_path)
        self.heard_at = socket.socket(socket.AF_UNIX, socket.SOCK_DGRAM)
        self.heard_at.bind(self.socket_path)
        self.heard_at.settimeout(0.3)
        env = {**self.env, "NOTIFY_SOCKET": self.socket_path, "WATCHDOG_USEC": str(int(SAYS_WITHIN * 1e6))}
        words = [*self.words, "--mqtt-version", "35"[self.starts % 2], *self.more]
        self.may_end, self.why, self.said_from = False, "", os.path.getsize(self.log_path)
        self.process = started(
            subprocess.Popen(words, env=env, stderr=self.log, stdout=self.log, start_new_session=True)
        )
        self.starts += 1

    def run(self) -> None:
        while not self.ended:
            self.listen()
            self.end_group()
            if self.ended:
                return
            if not self.may_end and not self.fault:
                self.fault = f"the feed ended, {self.why or 'by itself'}: {' '.join(self.said()[-300:].split())}"
            subprocess.run([*self.words, "--dead"], env=self.env, stderr=self.log, stdout=self.log, timeout=60)
            self.is_down.set()
            time.sleep(RESTART)
            self.let_run.wait()
            self.is_down.clear()
            if not self.ended:
                self.begin()

    def listen(self) -> None:
        """Takes what the feed says to systemd, until it has ended; kills it where it says nothing for too long, on a
        machine that has nothing else to do.
        """
        left = SAYS_WITHIN
        while self.process.poll() is None:
            began = time.monotonic()
            try:
                if self.heard_at.recv(100) in (b"READY=1", b"WATCHDOG=1"):
                    left = SAYS_WITHIN
            except TimeoutError:
                left -= (time.monotonic() - began) / slowness()
            if left <= 0:
                self.why = "since it had said nothing for too long"
                os.killpg(self.process.pid, signal.SIGKILL)
                self.process.wait()
        self.heard_at.close()

    def end_group(self) -> None:
        """Ends the feed's sources too, as systemd does, also one that stands still."""
        with contextlib.suppress(ProcessLookupError):
            os.killpg(self.process.pid, signal.SIGKILL)

    def kill(self) -> None:
        """Kills the feed, where one runs."""
        self.may_end = True
        with contextlib.suppress(ProcessLookupError):
            self.process.kill()

    def end(self) -> None:
        """Ends the feed, with its sources, for good: also those that get no time just then."""
        self.ended = self.may_end = True
        self.let_run.set()
        self.end_group()

    def hang(self) -> None:
        """The feed does nothing any more, until the watchdog has ended it."""
        starts, self.may_end = self.starts, True
        with contextlib.suppress(ProcessLookupError):
            os.killpg(self.process.pid, signal.SIGSTOP)
        await_true("the end of a feed that hangs", lambda: self.starts > starts)

    def pause(self, seconds: float) -> None:
        """The feed and its sources get no time, as on a machine that has none."""
        with contextlib.suppress(ProcessLookupError):
            os.killpg(self.process.pid, signal.SIGSTOP)
            time.sleep(seconds)
            os.killpg(self.process.pid, signal.SIGCONT)

    def hold_down(self) -> None:
        """Kills the feed, and waits until its alarm was set. It isn't started again before `let_run`."""
        self.let_run.clear()
        time.sleep(RESTART / 2)  # one that was about to be started is there
        await_true("the end of the feed", lambda: self.kill() or self.is_down.is_set())

    def said(self) -> str:
        """What the feed that runs has said."""
        with open(self.log_path, "rb") as log:
            log.seek(self.said_from)
            return log.read().decode("utf-8", "replace")

    def counts(self) -> dict[str, int]:
        """The counters on its page of metrics."""
        found = PAGE.search(self.said())
        if not found:
            raise Wrong("the feed names no page of metrics")
        with urllib.request.urlopen(found[0], timeout=10 * slowness()) as page:
            lines = page.read().decode().splitlines()
        return {
            name.removeprefix("alarms_feed_").removesuffix("_total"): int(value)
            for name, _, value in (line.partition(" ") for line in lines)
            if name.endswith("_total")
        }
