#!/usr/bin/env python3
"""Draws desk lines from a grammar that breaks itself, and compares the replies with a second reading of the lines.

    tests/program/lines.py PROGRAM [--short]

A drawn line follows the grammar, with numbers at their limits, and then often not: a bit flipped, a field doubled,
dropped or lengthened, a space, a zero or a carriage return too many. The reading here is a page of regular expressions.
It says which lines are bad or too long, and with which id they are refused; which roles may ask what; what a reply to a
good line may look like. Where the line alone decides the refusal, it has to be that one. Each action has to be accepted
in a run, and refused in each of its ways. Each good line that this leaves open has to be answered as plain_plant.py
answers it after the lines before, to the byte. Before that a desk accepts more actions than it remembers, and is opened
again.
"""
import multiprocessing
import os
import random
import re
import sys
import time

from drawn_lines import draw_line
from lib.plain_plant import REMEMBERED, Plant
from lib.program import PLANT, Wrong, begin, check, finish, run_words

CHUNK = 20_000
# Seconds that a desk may take for its lines.
PATIENCE = 600

# The actions of each role, and the refusals that an alarm's state brings about.
CONSOLE = {
    b"ACK": b"2",
    b"RESET": b"3",
    b"SHELVE": b"4 6",
    b"UNSHELVE": b"5",
    b"OOS": b"7 8",
    b"PRIO": b"20",
    b"SETP": b"20",
}
FEED = {b"VAL": b"9", b"DESIGN": b"7 8"}
CLOCK = {b"CLOCK": b"10"}
ROLES = [*[CONSOLE] * 16, FEED, CLOCK]
ACTIONS = {**CONSOLE, **FEED, **CLOCK}
# Refusals that a line decides alone.
BESIDES = {b"PRIO": b"19"}
DECIDED = (b"NO 13", b"NO 14", b"NO 11", b"NO 1", b"NO 17")
# Priorities, the alarm that latches, those that may be shelved, and for how long.
RANKS, LATCHING, SHELVABLE, SECONDS = range(1, 5), (2,), (0, 1), range(1, 3601)

SLOT = re.compile(rb"(0|[1-9]\d?) ")
LEADING = re.compile(rb"(0|[1-9]\d{0,9})(?: |$)", re.DOTALL)
NUM = rb"(?:0|[1-9]\d*)"
REQUEST = re.compile(
    rb"(?P<id>NUM) (?:"
    rb"(?P<one>ACK|RESET|UNSHELVE|STATE|ATTR|ROW) (?P<alarm>NUM)"
    rb"|(?P<bound>ACK) (?P<acked>NUM) (?P<stamp>NUM)"
    rb"|(?P<shelve>SHELVE) (?P<shelved>NUM) (?P<secs>NUM)"
    rb"|(?P<flag>OOS|DESIGN) (?P<flagged>NUM) (?P<how>ON|OFF)"
    rb"|(?P<prio>PRIO) (?P<ranked>NUM) (?P<rank>NUM)"
    rb"|(?P<val>VAL|SETP) (?P<valued>NUM) (?P<value>NUM|-[1-9]\d*)"
    rb"|(?P<clock>CLOCK) (?P<moment>NUM)"
    rb"|(?P<list>LIST) (?P<which>[PAS]) (?P<number>NUM)"
    rb"|(?P<flood>FLOOD) (?P<area>NUM)"
    rb"|(?P<since>SINCE)(?: (?P<after>NUM))?"
    rb"|(?P<all>STALE|CHATTER|PLANT))".replace(b"NUM", rb"(?:0|[1-9]\d*)")
)
WORDS = ("one", "bound", "shelve", "flag", "prio", "val", "clock", "list", "flood", "since", "all")
ALARMS = ("alarm", "acked", "shelved", "flagged", "ranked", "valued")
LIMITS = [
    ("id", 2**32),
    ("alarm", 2**32),
    ("acked", 2**32),
    ("stamp", 2**63),
    ("after", 2**48 + 1),
    ("shelved", 2**32),
    ("secs", 2**32),
    ("flagged", 2**32),
    ("ranked", 2**32),
    ("rank", 2**32),
    ("valued", 2**32),
    ("number", 2**32),
    ("area", 2**32),
    ("moment", 2**40),
]


def read(line):
    """What a line without its LF must be answered: a pattern of the reply."""
    if len(line) > 130:
        return rb"\? NO 14"
    slot = SLOT.match(line)
    if not slot or int(slot[1]) > 17:
        return rb"\? NO 13"
    rest = line[slot.end() :]
    if len(rest) > 127:
        return slot[1] + rb" 0 NO 14"
    return slot[1] + b" " + read_request(int(slot[1]), rest)


def read_request(slot, rest):
    found = REQUEST.fullmatch(rest)
    if not found or any(found[name] and int(found[name]) >= limit for name, limit in LIMITS):
        return leading_id(rest) + b" NO 13"
    if found["value"] and abs(int(found["value"])) > 10**12:
        return leading_id(rest) + b" NO 13"
    word = next(found[name] for name in WORDS if found[name])
    return found["id"] + b" " + read_word(slot, word, found)


def leading_id(rest):
    found = LEADING.match(rest)
    return found[1] if found and int(found[1]) < 2**32 else b"0"


def read_word(slot, word, found):
    if word in ACTIONS and word not in ROLES[slot]:
        return b"NO 11"
    if any(found[name] and int(found[name]) > 3 for name in ALARMS):
        return b"NO 1"
    if word in ACTIONS:
        return read_action(word, found)
    return read_query(word, found)


def read_action(word, found):
    """An action of an alarm that there is: accepted, or refused in one of its ways, as far as the line alone decides
    that."""
    alarm = next((int(found[name]) for name in ALARMS if found[name]), None)
    refusals = ACTIONS[word]
    if found["rank"] and int(found["rank"]) not in RANKS:
        return b"NO 19"
    if word == b"RESET" and alarm not in LATCHING:
        return b"NO 3"
    if word in (b"SHELVE", b"UNSHELVE") and alarm not in SHELVABLE:
        return refusals_of(refusals.split()[-1:])
    if word == b"SHELVE":
        if int(found["secs"]) not in SECONDS:
            return refusals_of(refusals.split())
        refusals = b"4"
    if found["bound"]:
        refusals = b"2 22"
    if found["how"]:
        refusals = b"7" if found["how"] == b"ON" else b"8"
    return b"(?:OK [1-9]\\d*|" + refusals_of(refusals.split()) + b")"


def refusals_of(numbers):
    return b"NO (?:" + b"|".join(numbers) + b")"


def outcomes(word):
    """In which ways an action has to be answered in a run."""
    own = (ACTIONS[word] + b" " + BESIDES.get(word, b"")).split()
    return {b"OK", b"NO 11", *(b"NO " + number for number in own)} | (set() if word == b"CLOCK" else {b"NO 1"})


def outcome(line, reply):
    """A line's word, and the reply's or its refusal; of a reply to SINCE how many entries it has."""
    words = reply.split(b" ")[2:]
    if words[0] == b"SINCE":
        return b"SINCE", {b"0": b"none", b"256": b"most"}.get(words[3], b"some")
    return line.split(b" ")[2], b" ".join(words) if words[0] == b"NO" else words[0]


def read_query(word, found):
    if word == b"STATE":
        return rb"STATE \d+ [A-Z]{4,5} [01] (?:-|O?D?S?) (?:-|\d+)"
    lists = {b"P": (1, 4), b"A": (0, 1), b"S": (0, 255)}
    if word == b"ATTR":
        return rb"ATTR \d+ [^\n]+"
    if word == b"ROW":
        return rb"ROW \d+ [A-Z]{4,5} [01] (?:-|O?D?S?) (?:-|\d+) \d+ [1-4] -?\d+ (?:0|1 \d+|2(?: \d+){2}|3(?: \d+){3})"
    if word == b"SINCE":
        return rb"SINCE \d+ [1-9]\d* (?:0|[1-9]\d*(?: \d+ \d+ [A-Z]+(?: -?\d+| ON| OFF){1,2})+)"
    if word == b"PLANT":
        return rb"PLANT \d+ \d+ 4 2"
    low, high = lists[found["which"]] if found["which"] else (0, 1)
    number = int(found["number"] or found["area"] or 0)
    if not low <= number <= high:
        return b"NO 17"
    if word == b"FLOOD":
        return rb"FLOOD \d+ \d+ [01]"
    return word + rb" \d+ (?:0|1 [0-3]|2(?: [0-3]){2}|3(?: [0-3]){3}|4(?: [0-3]){4})"


def modelled(plant, line, wanted):
    """The model's reply to a line; that which is wanted where it is a refusal by the line alone: of a bad line, by
    slot, number of alarm or of list."""
    if wanted.endswith(DECIDED):
        return wanted.replace(b"\\", b"")
    slot, number, *asked = line.decode().split(" ")
    return f"{slot} {number} {plant.answer(asked, int(slot))}".encode()


def draw_chunk(seed):
    """Drawn lines: each with the pattern of its reply, and the model's reply behind the lines before."""
    dice, plant = random.Random(seed), Plant()
    for _ in range(CHUNK):
        line = draw_line(dice, plant)
        wanted = read(line)
        yield line, wanted, modelled(plant, line, wanted)


def run_desk(program, lines, *device):
    """A desk's replies to lines."""
    run = run_words(program, ["desk", *device], lines=b"".join(line + b"\n" for line in lines), patience=PATIENCE)
    check(run.returncode == 0 and run.stderr == b"", run.returncode, run.stderr)
    replies = run.stdout.split(b"\n")
    check(len(replies) == len(lines) + 1, len(replies), "replies to", len(lines), "lines")
    return replies


def try_chunk(job):
    """How many of a chunk's lines were good and how actions were answered, or what is wrong."""
    program, seed = job
    drawn = list(draw_chunk(seed))
    try:
        good, seen = 0, set()
        for (line, wanted, by_model), reply in zip(drawn, run_desk(program, [line for line, _, _ in drawn])):
            check(re.fullmatch(wanted, reply), seed, line, "was answered", reply, "and not", wanted)
            check(reply == by_model, seed, line, "was answered", reply, "and by the model", by_model)
            if not wanted.endswith((b"NO 13", b"NO 14")):
                good += 1
                seen.add(outcome(line, reply))
        return good, seen
    except Wrong as wrong:
        return f"{seed}: {wrong}"


def looks(count):
    """Looks at the ends of what may be remembered behind this number of actions."""
    oldest = max(0, count - REMEMBERED)
    numbers = ["", 0, max(0, oldest - 1), oldest, oldest + 1, max(0, count - 256), max(0, count - 1), count, count + 1]
    return [f"0 2 SINCE {number}".rstrip().encode() for number in numbers]


def answers_as_modelled(program, plant, last, *device):
    """Moves a plant's clock in a desk up to an action, and looks at what is remembered; how many lines were answered as
    the model answers them, to the byte."""
    lines = looks(plant.count)
    for moment in range(plant.count + 1, last + 1):
        lines.append(b"17 1 CLOCK %d" % moment)
        if moment in (1, 257, REMEMBERED - 1, REMEMBERED, REMEMBERED + 1, last):
            lines += looks(moment)
    for line, reply in zip(lines, run_desk(program, lines, *device)):
        by_model = modelled(plant, line, b"")
        check(reply == by_model, "of", plant.count, line, "was answered", reply, "and by the model", by_model)
    return len(lines)


def remembers(program, folder):
    """More actions than are remembered; and a device that is opened again. How many lines were answered."""
    asked = answers_as_modelled(program, Plant(), REMEMBERED + 300)
    device, plant = os.path.join(folder, "device"), Plant()
    run = run_words(program, ["format", device, PLANT])
    check(run.returncode == 0, "format", run.stderr)
    for last in (300, 300, 310):
        asked += answers_as_modelled(program, plant, last, device)
        plant.begin()
    return asked


def main():
    program, lines, folder = begin("lines", sys.argv, 10_000_000, 200_000)
    started = time.monotonic()
    good, seen = 0, set()
    try:
        with multiprocessing.Pool(os.cpu_count()) as pool:
            remembering = pool.apply_async(remembers, (program, folder))
            for answer in pool.imap_unordered(try_chunk, [(program, seed) for seed in range(lines // CHUNK)]):
                if isinstance(answer, str):
                    sys.exit(f"lines: {answer}")
                good, seen = good + answer[0], seen | answer[1]
            asked = remembering.get()
    except Wrong as wrong:
        sys.exit(f"lines: {wrong}")
    queries = {(b"ATTR", b"ATTR"), (b"ATTR", b"NO 1"), (b"PLANT", b"PLANT")}
    queries |= {(b"ROW", b"ROW"), (b"ROW", b"NO 1"), (b"ACK", b"NO 22")}
    queries |= {(b"SINCE", length) for length in (b"none", b"some", b"most")}
    missing = ({(word, how) for word in ACTIONS for how in outcomes(word)} | queries) - seen
    if missing:
        sys.exit(f"lines: never seen: {sorted(missing)}")
    finish(
        "lines",
        folder,
        f"{lines} lines, {good} of them good, and {asked} around what is remembered: none read in another way,"
        f" {time.monotonic() - started:.0f} s",
    )


if __name__ == "__main__":
    main()
