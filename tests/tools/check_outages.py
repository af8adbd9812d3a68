"""What comes while the server hangs or is away, and what a broker keeps that is no value. tests/tools/field.py runs
these checks.
"""
import signal
import time
import urllib.request

from fed_plant import Plant, ended, published, put
from lib.tools import Yard, await_said, await_true, start, stop

from check_mqtt import Broker
from lib.program import check

# Retained payloads that are no value, of which some once ended a feed at each start, and what is said of each.
POISONS = {
    "1e9999999": "out of the limits of a value",
    "1" * 5_000: "out of the limits of a value",
    "[" * 5_000: "no number",
    '{"a":' * 5_000: "no JSON",
    '{"value": 1e9999999}': "out of the limits of a value",
    '{"value": 1, "time": 1e400}': "the time is no time",
    "\N{ARABIC-INDIC DIGIT THREE}": "no number",
    "385.5\nb,0": "no number",
}
# Seconds for which a server answers nobody: longer than a tool waits for a reply. Within WITHIN all is right again.
HANGS, WITHIN = 7.0, 10.0
LINES = 5_000


def poisons(yard: Yard, _: int) -> str:
    """What a broker keeps of a topic, and is no value, is said at each start, and ends no feed: the other topics'
    values come, and a good one of the same topic.
    """
    plant, broker = Plant(yard, "a,TI-1,10\nb,LI-2,10\n"), Broker(yard)
    words = ("--mqtt", f"mqtt://127.0.0.1:{broker.port}")
    yard.write("feed.log", "")
    for number, (payload, why) in enumerate(POISONS.items()):
        published(broker, "a", payload, "-r")
        published(broker, "b", "40" if number % 2 else "60", "-r")
        for _ in range(2):
            before = len(plant.said())
            feed = plant.feed(*words)
            plant.becomes(f"the other topic beside {payload[:30]}", False, bool(number % 2))
            await_true(why, lambda: plant.said()[before:].endswith(f": {why}\n"))
            check(
                feed.poll() is None and "Traceback" not in plant.said(), payload[:30], "ends it:", plant.said()[-500:]
            )
            ended(feed)
    feed = plant.feed(*words)
    published(broker, "a", "390", "-r")
    plant.becomes("a good value of the same topic", True)
    ended(feed)
    broker.kill()
    plant.server.end()
    return f"{len(POISONS)} retained payloads that are no values"


def hanging_server(yard: Yard, _: int) -> str:
    """A server that answers nobody for longer than a reply is waited for: sources are read on, and behind that each
    alarm is as the last value says.
    """
    plant, broker = Plant(yard, "a,TI-1,10\nb,LI-2,10\n"), Broker(yard)
    feed = plant.feed("--mqtt", f"mqtt://127.0.0.1:{broker.port}", "-")
    published(broker, "a", "370", "-r")
    put(feed, "b,40")
    plant.becomes("the first values", False, True)
    plant.server.process.send_signal(signal.SIGSTOP)
    for number in range(LINES):
        put(feed, f"b,{40 + number % 2}")
    published(broker, "a", "390", "-r")
    put(feed, "b,60")
    time.sleep(HANGS)
    check(feed.poll() is None and "gives no answer" in plant.said(), plant.said())
    plant.server.process.send_signal(signal.SIGCONT)
    plant.becomes("the last values", True, False, patience=WITHIN)
    ended(feed)
    broker.kill()
    plant.server.end()
    return "a hanging server"


def passed_over(yard: Yard, _: int) -> str:
    """Of what comes while there is no server the last of each name counts. The others are counted, each by itself, and
    their number is told once.
    """
    plant = Plant(yard, "a,TI-1,10\nb,LI-2,10\n")
    feed = start("alm_feed", "--port", plant.server.port, "--map", plant.mapped, "--metrics", "0")
    address = await_said(feed, "/metrics").split()[-1]
    port = plant.server.port
    plant.server.end()
    await_said(feed, "trying again")
    for number in range(LINES):
        feed.stdin.write(f"a,{370 + number % 2}\nb,{60 + number % 2}\n")
    feed.stdin.write("a,390\nb,40\n")
    feed.stdin.flush()
    time.sleep(1.0)  # all of it is in the pipe by then, and is read
    plant.server = yard.serve(yard.path("plant.device"), port)
    plant.becomes("the last values", True, True)
    with urllib.request.urlopen(address, timeout=30) as page:
        text = page.read().decode()
    check(f"\nalarms_feed_dropped_total {2 * LINES}\n" in text, "of", 2 * LINES, "dropped lines it counts", text)
    said = stop(feed)[1]
    check(said.count(f"{2 * LINES} lines were passed over: of each name the last counts\n") == 1, said)
    plant.server.end()
    return f"{2 * LINES} lines that were passed over"


CHECKS = {one.__name__: one for one in (poisons, hanging_server, passed_over)}
