"""The mends of the feed, each of which can be taken out of a copy of tools/: then the storm has to see it.

A mend is one or more places of a file, each there once, and what stands there without the mend. What no longer applies
is a failure.
"""
import shutil
from pathlib import Path

from lib.places import TOOLS
from lib.program import check

Edit = tuple[str, str, str]
NEVER = "1e9"
MENDS: dict[str, list[Edit]] = {
    "sends again": [("feed.py", "AGAIN, PAUSE, GATHERING = 8.0,", f"AGAIN, PAUSE, GATHERING = {NEVER},")],
    "reads on": [
        (
            "inbox.py",
            "            while waits and len(self.waiting) >= MOST:\n                self.changed.wait()\n",
            "            while self.is_away:\n                self.changed.wait(0.05)\n",
        )
    ],
    "newest of each": [
        (
            "inbox.py",
            "        latest: dict[Hashable, Reading] = {}\n        for reading in self.waiting:\n",
            "        latest: dict[Hashable, Reading] = {}\n        self.bound = KEPT if self.is_away else MOST\n"
            "        self.waiting = self.waiting[: self.bound]\n        return\n        for reading in self.waiting:\n",
        )
    ],
    "asks topics again": [
        (
            "feed_mqtt.py",
            "        self.groups.restart()\n        if flags",
            '        if not flags.get("session present"):\n            self.groups.restart()\n        if flags',
        ),
        (
            "feed_mqtt.py",
            "        if not self.groups or self.waits_for is not None or now < self.due:\n",
            "        if not self.groups or self.waits_for is not None or not self.first_round:\n",
        ),
    ],
    "retained is no life": [
        ("feed_mqtt.py", "            not message.retain and now >= self.kept_until,\n", "            True,\n")
    ],
    "late is no value": [
        (
            "feed_watch.py",
            "        return name in self.seconds and age > self.seconds[name]\n",
            "        return False\n",
        ),
        (
            "feed_lines.py",
            "        if reading.time < self.latest_time.get(reading.name, reading.time):\n",
            "        if False:\n",
        ),
    ],
    "bad by number": [("value_map.py", "        if number in self.bad_numbers:\n", "        if False:\n")],
    "bad by word": [("value_map.py", "        if text.lower() in self.bad:\n", "        if not text:\n")],
    "numbers of digits": [("value_map.py", "    if not NUMBER.fullmatch(text):\n", "    if not text:\n")],
    "its own topic": [
        (
            "feed_mqtt.py",
            "        self.gathered.append(reading)\n",
            '        first, *others = message.payload.decode("utf-8", "replace").split("\\n")\n'
            "        self.gathered.append(reading._replace(text=first) if others else reading)\n"
            '        pairs = [one.partition(",") for one in others]\n'
            "        self.gathered += [reading._replace(name=name, text=text) for name, _, text in pairs]\n",
        )
    ],
    "great exponents": [
        (
            "value_map.py",
            "    if number.adjusted() >= MOST_DIGITS or abs(number) > READING_LIMIT:\n",
            "    if abs(number * scale) > READING_LIMIT:\n",
        )
    ],
    "exact products": [
        (
            "value_map.py",
            "    product = EXACT.multiply(number, scale)\n",
            "    product = Decimal(float(number) * float(scale))\n",
        )
    ],
    "suppressions first, again": [
        (
            "feed.py",
            "    return sorted(latest, key=lambda one: (not one.value) * 2 if one.is_design else 1)\n",
            "    return list(latest)\n",
        )
    ],
    "suppressions first, retained": [
        (
            "feed_mqtt.py",
            "        self.gathered += sorted(first.values(), key=lambda one: not self.is_design(one.name))\n",
            "        self.gathered += first.values()\n",
        )
    ],
    "on delay": [
        ("feed_delay.py", "row.on_delay if comes else row.off_delay)\n", "0.0 if comes else row.off_delay)\n")
    ],
    "off delay": [
        ("feed_delay.py", "row.on_delay if comes else row.off_delay)\n", "row.on_delay if comes else 0.0)\n")
    ],
    "its own alarm": [
        ("feed_dead.py", "        client.value(number, plant.table.alarms[number].coming)\n", "        pass\n")
    ],
    "watchdog": [("feed_alive.py", '            notify("WATCHDOG=1")\n', "            pass\n")],
    "unmapped rows": [
        (
            "value_map.py",
            "        self.active = found\n        return said\n",
            "        if said:\n            raise NoMap(said[0])\n        self.active = found\n        return said\n",
        )
    ],
    "rows that come back": [
        ("feed.py", "        missing = list(self.lines.missing(self.latest))\n", "        missing = []\n")
    ],
    "told rows": [
        ("feed.py", "            if line not in self.left_out:\n                say(line)\n", "            pass\n")
    ],
    "counts what is late": [("feed_lines.py", '                self.counts["late"] += 1\n', "                pass\n")],
    "told where rounded": [
        (
            "feed_lines.py",
            "            if not reading.text.isdecimal() and row.loses_fraction(reading.text):\n",
            "            if False:\n",
        )
    ],
    "told once": [("feed_lines.py", "        self.reported.add(key)\n", "        pass\n")],
}


def copy_without(mend: str, folder: str) -> Path:
    """A copy of tools/ without a mend. `Wrong` says that one no longer applies."""
    tools = Path(folder, "tools")
    shutil.copytree(TOOLS, tools, ignore=shutil.ignore_patterns("__pycache__"))
    for name, old, new in MENDS[mend]:
        path = tools / "alarms" / name
        text = path.read_text(encoding="utf-8")
        check(text.count(old) == 1, mend, "no longer applies: in", name, "there is", text.count(old), "times", old)
        path.write_text(text.replace(old, new), encoding="utf-8")
    return tools
