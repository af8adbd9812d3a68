"""alm_metrics and its rules against the built program. tests/tools/clients.py runs these checks."""
import collections
import json
import re
import shutil
import signal
import socket
import subprocess
import time
import urllib.error
import urllib.parse
import urllib.request

from alarms.client import CLOCK, FEED, PRIORITIES, Client
from lib.places import DEPLOY, EXAMPLES
from lib.program import check, free_ports
from lib.server import Server
from alarms.table_file import load_table
from lib.tools import Yard, await_said, await_true, ended, start, started, stop
from check_since import act

PLANT, REFINERY = str(EXAMPLES / "plant.toml"), str(EXAMPLES / "refinery.toml")
MAP = "name,tag,silent,watch\na,TI-101,60,YS-124\n"
DAY = 86_400


def metrics(yard: Yard) -> str:
    """What the exporter shows is what the server shows."""
    device = yard.format("metrics.device", REFINERY)
    server = yard.serve(device)
    running = start("alm_metrics", "--port", server.port, "--listen", 0, "--table", REFINERY)
    address = await_said(running, "/metrics").split()[1]
    counts(address, {}, {})  # from here on
    with Client.connect(server.port, CLOCK) as clock, Client.connect(server.port, FEED) as feed, Client.connect(
        server.port, 0
    ) as console:
        clock.clock(1000)
        came = load_table(REFINERY).alarms[:12]
        for alarm, entry in enumerate(came):
            feed.value(alarm, entry.setpoint)
        console.acknowledge(1)
        console.shelve(5, 60)
        for priority in PRIORITIES:
            number = sum(entry.priority == priority for entry in came) - (
                priority in (came[1].priority, came[5].priority)
            )
            holds(address, f'alarms_annunciated{{priority="{priority}",state="UNACK"}} {number}')
        holds(
            address,
            'alarms_annunciated{priority="1",state="ACKED"} 1',
            "alarms_up 1",
            "alarms_shelved 1",
            "alarms_stale 0",
            "alarms_actions_total 15",
            "alarms_moment_seconds 1000",
            "alarms_configured 200",
            "alarms_chattering 0",
            'alarms_area_annunciations{area="0"} 12',
            'alarms_area_flooded{area="0"} 1',
            'alarms_area_flooded{area="7"} 0',
        )
        of_priority = collections.Counter(entry.priority for entry in came)
        counts(address, of_priority, {came[1].priority: 1})
        stands_still(address)
        for value in (0, 5000, 0, 5000):
            feed.value(0, value)
        holds(address, "alarms_chattering 1", "alarms_stale 0")
        counts(address, of_priority + collections.Counter({came[0].priority: 2}), {came[1].priority: 1})
        clock.clock(1000 + DAY)
        holds(address, "alarms_chattering 0", "alarms_stale 11")
        slot_taken(address, server)
    checked = lint(address)
    silent(address)
    server.end()
    holds(address, "alarms_up 0")
    stop(running)
    stops_at_another(yard, device)
    return f"alm_metrics, {checked}"


def without_device(yard: Yard) -> str:
    """Annunciations are counted by the server's lines alone, however they come about, also over a new server; what that
    one doesn't remember is told."""
    device = yard.format("counted.device", PLANT)
    server = yard.serve(device)
    address = await_said(start("alm_metrics", "--port", server.port, "--listen", 0), "/metrics").split()[1]

    def holds_counts(annunciated: dict[int, int], acknowledged: dict[int, int], uncounted: int) -> None:
        for name, wanted in (("annunciations", annunciated), ("acknowledgements", acknowledged)):
            holds(address, *(f'alarms_{name}_total{{priority="{one}"}} {wanted.get(one, 0)}' for one in PRIORITIES))
        holds(address, f"alarms_uncounted_actions_total {uncounted}")

    act(server, (CLOCK, "CLOCK 1000"), (FEED, "VAL 1 50"), (0, "SHELVE 1 60"))
    holds_counts({}, {}, 0)  # what was before isn't counted; the shelving is known from the row
    act(server, (CLOCK, "CLOCK 1060"), (0, "SHELVE 1 60"), (0, "UNSHELVE 1"))
    act(server, (0, "OOS 1 ON"), (FEED, "DESIGN 1 ON"), (0, "OOS 1 OFF"), (FEED, "DESIGN 1 OFF"))
    holds_counts({2: 3}, {}, 0)
    act(server, (0, "PRIO 1 4"), (0, "ACK 1"), (FEED, "VAL 1 200"), (FEED, "VAL 1 50"), (0, "SHELVE 1 9"))
    act(server, (FEED, "VAL 2 1"), (FEED, "VAL 2 0"), (0, "OOS 2 ON"), (FEED, "VAL 2 1"), (FEED, "VAL 2 0"))
    act(server, (0, "OOS 2 OFF"), (CLOCK, "CLOCK 1069"))
    holds_counts({1: 1, 2: 3, 4: 2}, {4: 1}, 0)
    server.end()
    server = yard.serve(device, server.port)
    act(server, (0, "ACK 1"), (FEED, "VAL 3 60"))
    holds_counts({1: 1, 2: 3, 3: 1, 4: 2}, {4: 2}, 0)
    act(server, (FEED, "VAL 3 0"), (FEED, "VAL 3 60"), (0, "ACK 3"))
    server.end()
    server = yard.serve(device, server.port)
    act(server, (FEED, "VAL 3 0"))
    holds_counts({1: 1, 2: 3, 3: 1, 4: 2}, {4: 2}, 4)
    act(server, (FEED, "VAL 3 60"))
    holds_counts({1: 1, 2: 3, 3: 2, 4: 2}, {4: 2}, 4)
    server.end()
    return "counters without a device"


def counts(address: str, annunciated: dict[int, int], acknowledged: dict[int, int]) -> None:
    """The exporter has counted so many by priority, and all of them."""
    for name, wanted in (("annunciations", annunciated), ("acknowledgements", acknowledged)):
        holds(address, *(f'alarms_{name}_total{{priority="{one}"}} {wanted.get(one, 0)}' for one in PRIORITIES))
    holds(address, "alarms_uncounted_actions_total 0")


def slot_taken(address: str, server: Server) -> None:
    """Another client at the exporter's slot isn't a server that is down, whatever other slots are taken too; a server
    that halts is, in time.
    """
    others = [Client.connect(server.port, slot) for slot in (15, 14, 13)]
    for other in others:
        other.plant()
    holds(
        address, "alarms_up 1", "alarms_slot_taken 1", f"alarms_actions_total {others[0].seen}", "alarms_configured 200"
    )
    check("alarms_annunciated" not in scrape(address), "a page of one query has more")
    for other in others:
        other.close()
    holds(address, "alarms_up 1", "alarms_slot_taken 0")
    server.process.send_signal(signal.SIGSTOP)
    began = time.monotonic()
    holds(address, "alarms_up 0", "alarms_slot_taken 0")
    took = time.monotonic() - began
    server.process.send_signal(signal.SIGCONT)
    check(took < 9, "the page of a server that halts took", took, "s, and Prometheus waits ten")
    await_true("a server that goes on", lambda: "alarms_up 1" in scrape(address).splitlines())


def stands_still(address: str) -> None:
    """The exporter tells for how long the clock stands, which nobody moves here."""
    found = [float(re.search(r"^alarms_clock_still_seconds (\S+)$", scrape(address), re.M)[1])]
    time.sleep(1.2)
    found.append(float(re.search(r"^alarms_clock_still_seconds (\S+)$", scrape(address), re.M)[1]))
    check(found[0] + 1 < found[1] < found[0] + 60, "the clock stands still for", found)


def holds(address: str, *lines: str) -> None:
    text = scrape(address)
    for line in lines:
        check(line in text.splitlines(), line, "isn't in", text)


def scrape(address: str) -> str:
    """What an exporter says."""
    return urllib.request.urlopen(address, timeout=60).read().decode()


def lint(address: str) -> str:
    """Prometheus' own tool takes it, where that is there."""
    return taken(scrape(address))


def taken(page: str) -> str:
    """Prometheus' own tool takes a page, where that is there."""
    if not shutil.which("promtool"):
        return "no promtool"
    run = subprocess.run(["promtool", "check", "metrics"], input=page, capture_output=True, text=True, timeout=60)
    check(run.returncode == 0 and not run.stdout + run.stderr, run.stdout, run.stderr)
    return "promtool"


# A plant with an unacknowledged alarm and a flood, whose server dies after ten minutes and is back, in order, half an
# hour later. Behind that each trouble comes for some minutes: of the list, the feed, the device, the clock, the pages.
RULES = """
rule_files: [RULES]
evaluation_interval: 15s
tests:
  - interval: 15s
    input_series:
      - {series: 'up{job="alarms"}', values: '1x385 0x15'}
      - {series: 'alarms_up', values: '1x39 0x119 1x240'}
      - {series: 'alarms_slot_taken', values: '0x250 1x150'}
      - {series: 'alarms_clock_still_seconds', values: '1x39 stale _x118 1x219 20x20'}
      - {series: 'alarms_annunciated{priority="1",state="UNACK"}', values: '1x39 stale _x118 0x90 stale _x150'}
      - {series: 'alarms_annunciated{priority="2",state="UNACK"}', values: '1x39 stale _x118 0x90 stale _x150'}
      - {series: 'alarms_area_flooded{area="0"}', values: '1x39 stale _x118 0x90 stale _x150'}
      - {series: 'alarms_device_damaged{plant="north",half="1",at="4100"}', values: '0x339 1x19 0x40'}
      - {series: 'up{job="node"}', values: '1x363 0x11 1x24'}
      - {series: 'node_textfile_mtime_seconds{file="/var/lib/a/alarms_north.prom"}', values: '0+15x304 4560x29 5010+15x65'}
      - {series: 'node_textfile_mtime_seconds{file="/var/lib/a/apt.prom"}', values: '0x399'}
      - {series: 'up{job="alarms-archive"}', values: '1x384 0x15'}
      - {series: 'alarms_archive_rows_denied', values: '0x319 2x15 0x60'}
      - {series: 'up{job="alarms-list"}', values: '1x187 0x11 1x199'}
      - {series: 'alarms_list_connected{plant="north"}', values: '1x167 0x11 1x219'}
      - {series: 'alarms_list_rows_denied{plant="north"}', values: '0x183 2x3 0x211'}
      - {series: 'up{job="alarms-feed"}', values: '1x199 0x19 1x180'}
      - {series: 'alarms_feed_connected', values: '1x219 0x19 1x160'}
      - {series: 'alarms_feed_last_value_timestamp_seconds', values: '0+15x239 3585x19 3900+15x139'}
      - {series: 'alarms_feed_sources_silent', values: '0x259 2x39 0x100'}
      - {series: 'alarms_feed_bad_total', values: '0x279 1+1x59 60x60'}
      - {series: 'alarms_feed_late_total', values: '0x399'}
    alert_rule_test:
CASES
"""
# The labels of each rule's alert, and which fire at which moments.
ALERTS = {
    "AlarmUnacknowledged": 'priority: "1", state: UNACK',
    "AlarmFlood": 'area: "0"',
    "AlarmServerDown": "",
    "AlarmSlotTaken": "",
    "AlarmClockStill": "",
    "AlarmMetricsGone": "job: alarms",
    "AlarmDeviceDamaged": 'plant: north, half: "1", at: "4100"',
    "AlarmDeviceUnread": "",
    "AlarmArchiveGone": "job: alarms-archive",
    "AlarmArchiveDenied": "",
    "AlarmListGone": "job: alarms-list",
    "AlarmListWithoutServer": "plant: north",
    "AlarmListDenied": "plant: north",
    "AlarmFeedGone": "job: alarms-feed",
    "AlarmFeedStill": "",
    "AlarmFeedWithoutServer": "",
    "AlarmFeedSourcesSilent": "",
    "AlarmFeedBadValues": "",
}
FIRING = {
    "9m": "AlarmUnacknowledged AlarmFlood",
    "15m": "AlarmUnacknowledged AlarmFlood AlarmServerDown",
    "38m": "AlarmUnacknowledged AlarmFlood AlarmServerDown",
    "44m": "AlarmListWithoutServer",
    "45m": "",
    "46m": "AlarmListDenied",
    "49m": "AlarmListGone",
    "52m": "AlarmFeedGone",
    "57m": "AlarmFeedWithoutServer",
    "63m": "AlarmFeedStill",
    "68m": "AlarmSlotTaken",
    "71m": "AlarmSlotTaken AlarmFeedSourcesSilent",
    "79m": "AlarmSlotTaken",
    "82m": "AlarmSlotTaken AlarmFeedBadValues AlarmArchiveDenied",
    "83m": "AlarmSlotTaken AlarmFeedBadValues AlarmArchiveDenied AlarmDeviceUnread",
    "87m": "AlarmSlotTaken AlarmFeedBadValues AlarmDeviceDamaged",
    "92m": "AlarmSlotTaken AlarmFeedBadValues AlarmDeviceUnread",
    "96m": "AlarmSlotTaken AlarmClockStill",
    "99m": "AlarmSlotTaken AlarmClockStill AlarmMetricsGone AlarmArchiveGone",
}


def rules(yard: Yard) -> str:
    """Prometheus' own tool finds the rules right: each fires by its trouble, and by no other one. What stood as the
    server died stands, and ends once the server is back and says so.
    """
    if not shutil.which("promtool"):
        return "no promtool: rules left out"
    text = (DEPLOY / "prometheus" / "alarms.rules.yml").read_text(encoding="utf-8")
    check(set(re.findall(r"alert: (\w+)", text)) == set(ALERTS), "the rules are others than those that are tried")
    cases = []
    for moment, firing in FIRING.items():
        for name, labels in ALERTS.items():
            expected = f"[{{exp_labels: {{{labels}}}}}]" if name in firing.split() else "[]"
            cases.append(f"      - {{eval_time: {moment}, alertname: {name}, exp_alerts: {expected}}}")
    bare = yard.write("bare.yml", re.sub(r"\n +annotations:\n +summary: .*", "", text))
    tested = yard.write("rules.yml", RULES.replace("RULES", bare).replace("CASES", "\n".join(cases)))
    for words in (("check", "rules", str(DEPLOY / "prometheus" / "alarms.rules.yml")), ("test", "rules", tested)):
        run = subprocess.run(["promtool", *words], capture_output=True, text=True, timeout=60)
        check(run.returncode == 0, run.stdout, run.stderr)
    return f"{len(ALERTS)} rules"


def silent(address: str) -> None:
    """Clients that connect and say nothing hold nobody up."""
    port = int(address.split(":")[2].partition("/")[0])
    silent_ones = [socket.create_connection(("127.0.0.1", port)) for _ in range(4)]
    began = time.monotonic()
    scrape(address)
    check(time.monotonic() - began < 25, "silent clients held the exporter up")
    for one in silent_ones:
        one.close()


def stops_at_another(yard: Yard, device: str) -> None:
    """The exporter ends, with one line, where the plant has fewer actions than before, or doesn't fit the table."""
    for path, table, why in (
        (yard.format("fewer.device", REFINERY), REFINERY, "its count of actions is 0, and it was "),
        (None, PLANT, f"{PLANT}: the plant has more alarms than the table's 4"),
    ):
        server = yard.serve(device)
        words = ("--port", server.port, "--listen", 0, "--table", table)
        running = start("alm_metrics", *words)
        address = await_said(running, "/metrics").split()[1]
        if path:
            for _ in range(2):
                counts(address, {}, {})  # what was before isn't counted
            server.end()
            server = yard.serve(path, server.port)
        try:
            check(False, "of another plant the exporter says", scrape(address))
        except urllib.error.HTTPError as error:
            check(error.code == 503, error)
        status, _, said = ended(running)
        server.end()
        check(status == 1 and said.count("\n") == 1 and why in said, said)


def dashboard(yard: Yard) -> str:
    """A real Prometheus answers each expression of the dashboard and of the rules, over the pages of alm_metrics and
    alm_feed.
    """
    if not shutil.which("prometheus"):
        return "no prometheus: dashboard left out"
    device = yard.format("board.device", REFINERY)
    server = yard.serve(device)
    pages = (
        start("alm_metrics", "--port", server.port, "--listen", 0),
        start("alm_feed", "--port", server.port, "--map", yard.write("map.csv", MAP), "--metrics", 0),
    )
    pages[1].stdin.write("a,3000\n")
    pages[1].stdin.flush()
    places = [await_said(page, "/metrics").split("http://")[1].split("/")[0] for page in pages]
    config, port = scraping(yard, dict(zip(("alarms", "alarms-feed"), places))), free_ports()
    words = [
        f"--config.file={config}",
        f"--storage.tsdb.path={yard.path('tsdb')}",
        f"--web.listen-address=127.0.0.1:{port}",
    ]
    started(subprocess.Popen(["prometheus", *words], stdout=subprocess.DEVNULL, stderr=subprocess.DEVNULL))
    panels = json.loads((DEPLOY / "prometheus" / "dashboard.json").read_text(encoding="utf-8"))["panels"]
    for target in (target for panel in panels for target in panel["targets"]):
        await_true(target["expr"], lambda: bool(queried(port, target["expr"])))
    rules_text = (DEPLOY / "prometheus" / "alarms.rules.yml").read_text(encoding="utf-8")
    expressions = re.findall(r"(?m)^ +expr: (.*)$", rules_text)
    check(len(expressions) > 10, expressions)
    for expression in expressions:
        queried(port, expression)
    for page in pages:
        stop(page)
    server.end()
    return f"{len(panels)} panels"


def scraping(yard: Yard, places: dict[str, str]) -> str:
    """The example of what Prometheus reads, over pages of jobs at places of their own, each second. Each job of a rule
    is one of its, and Prometheus' own tool takes it."""
    text = (DEPLOY / "prometheus" / "prometheus.yml").read_text(encoding="utf-8")
    jobs = dict(re.findall(r"(?m)^  - job_name: (\S+)\n    static_configs: \[{targets: \[\"(\S+)\"\]}\]$", text))
    rules = DEPLOY / "prometheus" / "alarms.rules.yml"
    named = set(re.findall(r'up\{job="([^"]*)"\}', rules.read_text(encoding="utf-8")))
    check(named == set(jobs), "rules name the jobs", named, "and Prometheus reads", jobs)
    text = text.replace("[alarms.rules.yml]", f"[{rules}]")
    for job, place in jobs.items():
        text = text.replace(place, places.get(job, "127.0.0.1:1"))
    config = yard.write("prometheus.yml", "global: {scrape_interval: 1s, evaluation_interval: 1s}\n" + text)
    if shutil.which("promtool"):
        run = subprocess.run(["promtool", "check", "config", config], capture_output=True, text=True, timeout=60)
        check(run.returncode == 0, run.stdout, run.stderr)
    return config


def queried(port: int, expression: str) -> list[object]:
    """What a Prometheus finds; none while it isn't there. Each metric that an expression names is one that there is."""
    query = urllib.parse.urlencode({"query": expression})
    try:
        with urllib.request.urlopen(f"http://127.0.0.1:{port}/api/v1/query?{query}", timeout=30) as answer:
            found = json.loads(answer.read())
    except urllib.error.HTTPError as error:
        check(error.code == 503, expression, error.read().decode())  # it isn't ready yet
        return []
    except urllib.error.URLError:
        return []
    return found["data"]["result"]
