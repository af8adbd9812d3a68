"""Sets the alarms that watch a feed, for whoever is left as it has ended: its unit, by ExecStopPost=."""
import time
from typing import Optional

from .client import Lost, Plant, Refusal, Refused
from .feed_lines import say
from .feed_options import Options

# Seconds for which a server is waited for, and between two tries.
PATIENCE, PAUSE = 5.0, 0.2


def set_dead(plant: Plant, options: Options) -> int:
    """Sets the feed's own watching alarm, or without one those of the map; 1 where that isn't done."""
    own = [options.watch] if options.watch else []
    tags = own or sorted({row.watch for row in (options.values.all_rows() if options.values else ()) if row.watch})
    if not tags:
        say("no alarm watches this feed: --watch names one")
        return 1
    deadline, lost = time.monotonic() + PATIENCE, None
    while time.monotonic() < deadline:
        try:
            return send_all(plant, tags)
        except Lost as one:
            lost = one
            plant.lose()
            time.sleep(PAUSE)
    say(f"{lost}: {', '.join(tags)} can't be set")
    return 1


def send_all(plant: Plant, tags: list[str]) -> int:
    """Sends each tag its setpoint."""
    status = 0
    with plant.connect() as client:
        numbers = plant.table.numbers()
        for tag in tags:
            why = set_one(client, plant, numbers.get(tag))
            say(f"{tag}: {why or 'is set, since the feed has ended'}")
            status = 1 if why else status
    return status


def set_one(client, plant: Plant, number: Optional[int]) -> str:
    """Sends an alarm its setpoint; why it isn't done, if so."""
    if number is None or plant.table.alarms[number].kind != "discrete":
        return "is no tag of the plant, or not of the kind discrete"
    try:
        client.value(number, plant.table.alarms[number].coming)
    except Refused as refused:
        return "" if refused.refusal == Refusal.NO_CHANGE else str(refused)
    return ""
