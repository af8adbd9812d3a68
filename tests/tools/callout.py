#!/usr/bin/env python3
"""alm_alertmanager and the example of routes, against the built program and a real Alertmanager.

    tests/tools/callout.py PROGRAM [--short]

A priority 1 alarm reaches a webhook, and its end after an acknowledgement. A server that dies is called as dead, and
nothing of its plant as ended. Another client at the slot isn't a dead server. What was acknowledged while the call-out
or Alertmanager was away is ended later. A flood keeps priorities 3 and 4 back. The example's routes decide who is
called.

It needs prometheus-alertmanager (Debian's package), and ends with status 77 where that isn't there.
"""
import http.server
import json
import os
import shutil
import signal
import subprocess
import sys
import threading
import time

from lib.tools import Yard, await_true, end_all, slowness, started, toml, words_of

from alarms.client import FEED, Client, Lost, Refused
from alarms.table_file import Alarm, Table, device_size
from history import leave
from lib.places import AT_TOOLS, DEPLOY
from lib.program import Wrong, begin, check, finish, free_ports

EXAMPLE = DEPLOY / "prometheus" / "alertmanager.yml"
PROGRAM = "prometheus-alertmanager"
# Alarms 0 to 2 of priority 1 and areas 0 to 2, 3 of priority 2 in area 0; from 4 on priority 3 in area 1.
ALARMS = [Alarm("high", 10, 1, area, f"TI-{area}", text=f"Temperature {area}") for area in range(3)]
ALARMS += [Alarm("high", 10, 2, 0, "TI-3")] + [Alarm("high", 10, 3, 1, f"LI-{number}") for number in range(14)]


class Webhook(http.server.ThreadingHTTPServer):
    """Who is called: each alert that comes, with the path, its status and its labels."""

    daemon_threads = True

    def __init__(self) -> None:
        super().__init__(("127.0.0.1", 0), Called)
        self.calls: list[tuple[str, str, str, str]] = []
        threading.Thread(target=self.serve_forever, daemon=True).start()

    def has(self, path: str, status: str, name: str, tag: str = "") -> bool:
        return (path, status, name, tag) in self.calls

    def ended(self) -> set[str]:
        """What was called as ended: tags, or names of alerts without one."""
        return {tag or name for _, status, name, tag in self.calls if status == "resolved"}


class Called(http.server.BaseHTTPRequestHandler):
    """A call."""

    server: Webhook

    def do_POST(self) -> None:
        body = json.loads(self.rfile.read(int(self.headers["Content-Length"])))
        for alert in body["alerts"]:
            labels = alert["labels"]
            self.server.calls.append((self.path, alert["status"], labels["alertname"], labels.get("tag", "")))
        self.send_response(200)
        self.end_headers()

    def log_message(self, *_: object) -> None:
        pass


class Site:
    """A served plant, an Alertmanager by the example, a webhook, and the call-out."""

    def __init__(self, yard: Yard):
        self.yard, self.webhook, self.port = yard, Webhook(), free_ports()
        self.device = yard.format(
            "plant.device", yard.write("plant.toml", toml(Table(device_size(len(ALARMS), 3), 3, ALARMS)))
        )
        self.server = yard.serve(self.device)
        text = EXAMPLE.read_text(encoding="utf-8").replace(":9095/", f":{self.webhook.server_port}/")
        for old, new in (
            ("group_interval: 30s", "group_interval: 1s"),
            ("active_time_intervals: [day]", "continue: false"),
        ):
            check(old in text, "the example has no", old)
            text = text.replace(old, new)
        self.config = yard.write("alertmanager.yml", text)
        self.begin_manager()
        self.begin()

    def begin_manager(self) -> None:
        words = [
            f"--config.file={self.config}",
            f"--storage.path={self.yard.path('manager')}",
            f"--web.listen-address=127.0.0.1:{self.port}",
        ]
        log = open(self.yard.path("manager.log"), "ab")
        self.manager = started(subprocess.Popen([PROGRAM, *words, "--cluster.listen-address="], stdout=log, stderr=log))

    def begin(self) -> None:
        words = words_of(
            "alm_alertmanager",
            ("--port", self.server.port, "--to", f"http://127.0.0.1:{self.port}", "--priorities", "1,2,3"),
        )
        with open(self.yard.path("callout.log"), "ab") as log:
            self.process = started(subprocess.Popen(words, env=AT_TOOLS, stderr=log))

    def end(self, *processes: subprocess.Popen) -> None:
        for one in processes:
            one.kill()
            one.wait()

    def come(self, *alarms: int, value: int = 20) -> None:
        with Client.connect(self.server.port, FEED) as feed:
            for alarm in alarms:
                feed.value(alarm, value)

    def acknowledge(self, alarm: int) -> None:
        with Client.connect(self.server.port, 3) as console:
            console.acknowledge(alarm)

    def calls(self, path: str, status: str, name: str, tag: str = "") -> None:
        await_true(f"the call {path} {status} {name} {tag}", lambda: self.webhook.has(path, status, name, tag))


def called_and_ended(site: Site) -> str:
    """A priority 1 alarm is called, and its end once it is acknowledged; priority 2 of area 0 calls its engineer."""
    began = time.monotonic()
    site.come(0)
    site.calls("/shift", "firing", "ProcessAlarm", "TI-0")
    took = time.monotonic() - began
    site.come(3)
    site.calls("/engineers", "firing", "ProcessAlarm", "TI-3")
    site.acknowledge(0)
    site.calls("/shift", "resolved", "ProcessAlarm", "TI-0")
    return f"called after {took:.1f} s"


def dead_server(site: Site) -> str:
    """A server that dies is called as dead; nothing of its plant is called as ended, by it or as it is back."""
    site.come(1)
    site.calls("/shift", "firing", "ProcessAlarm", "TI-1")
    before = site.webhook.ended()
    site.server.end()
    site.calls("/machines", "firing", "AlarmServerDown")
    time.sleep(4 * slowness())
    check(site.webhook.ended() == before, "a dead server ended", site.webhook.ended() - before)
    site.server = site.yard.serve(site.device, site.server.port)
    site.calls("/machines", "resolved", "AlarmServerDown")
    check(
        site.webhook.ended() == before | {"AlarmServerDown"},
        "a server that is back ended",
        site.webhook.ended() - before,
    )
    return "a dead server"


def taken_slot(site: Site) -> str:
    """Another client at the slot isn't a dead server."""
    site.end(site.process)
    with Client.connect(site.server.port, 10) as other:
        other.plant()
        site.begin()
        site.calls("/machines", "firing", "AlarmSlotTaken")
        check(
            len([1 for _, status, name, _ in site.webhook.calls if (status, name) == ("firing", "AlarmServerDown")])
            == 1,
            site.webhook.calls,
        )
    site.calls("/machines", "resolved", "AlarmSlotTaken")
    return "a taken slot"


def while_away(site: Site) -> str:
    """What was acknowledged while the call-out was away is ended as it is back; so is what was while Alertmanager
    was.
    """
    site.end(site.process)
    time.sleep(1)
    check("TI-1" not in site.webhook.ended(), "the end of the call-out ended an alarm")
    site.acknowledge(1)
    site.begin()
    site.calls("/shift", "resolved", "ProcessAlarm", "TI-1")
    site.come(2)
    site.calls("/shift", "firing", "ProcessAlarm", "TI-2")
    site.end(site.manager)
    site.come(1, value=0)
    site.come(1)
    site.webhook.calls.clear()
    time.sleep(2)
    site.begin_manager()
    site.calls("/shift", "firing", "ProcessAlarm", "TI-1")
    site.acknowledge(1)
    site.calls("/shift", "resolved", "ProcessAlarm", "TI-1")
    check("TI-2" not in site.webhook.ended(), "Alertmanager's end ended an alarm")
    check(
        "trying again" in site.yard.read("callout.log") and "Traceback" not in site.yard.read("callout.log"),
        site.yard.read("callout.log"),
    )
    return "call-out and Alertmanager away"


def flood(site: Site) -> str:
    """In a flood of area 1 nobody is called for its priority 3."""
    site.come(*range(4, 18))
    time.sleep(4 * slowness())
    with Client.connect(site.server.port, 3) as console:
        check(console.flood(1).flooded, "there is no flood")
    known = json.loads(
        subprocess.run(
            [
                "amtool",
                f"--alertmanager.url=http://127.0.0.1:{site.port}",
                "alert",
                "query",
                "--inhibited",
                "-o",
                "json",
            ],
            capture_output=True,
            text=True,
            timeout=60,
        ).stdout
    )
    tags = {one["labels"].get("tag") for one in known}
    check({f"LI-{number}" for number in range(14)} <= tags, "in a flood these are held back:", tags)
    return "a flood"


def main() -> None:
    if not shutil.which(PROGRAM) or not shutil.which("amtool"):
        print(f"callout: left out: no {PROGRAM}")
        sys.exit(77)
    program, _, folder = begin("callout", sys.argv, 0, 0)
    began = time.monotonic()
    for number in (signal.SIGTERM, signal.SIGINT):
        signal.signal(number, leave)
    try:
        run = subprocess.run(["amtool", "check-config", str(EXAMPLE)], capture_output=True, text=True, timeout=60)
        check(run.returncode == 0, run.stdout, run.stderr)
        os.makedirs(os.path.join(folder, "manager"))
        site = Site(Yard(program, folder))
        said = [one(site) for one in (called_and_ended, dead_server, taken_slot, while_away, flood)]
    except (Wrong, Lost, Refused, OSError, subprocess.TimeoutExpired) as wrong:
        sys.exit(f"callout: {wrong}; devices are in {folder}")
    finally:
        end_all()
    finish("callout", folder, f"{'; '.join(said)}; none wrong, {time.monotonic() - began:.0f} s")


if __name__ == "__main__":
    main()
