"""Draws desk lines from their grammar, which then breaks itself: a part of lines.py.

A number stands at a limit, or near what the plant has: its count of actions, its moment, an alarm's stamp.
"""

NUMBERS = [
    0,
    1,
    2,
    3,
    4,
    9,
    10,
    99,
    255,
    256,
    3600,
    3601,
    65535,
    2**31,
    2**32 - 1,
    2**32,
    2**40 - 1,
    2**40,
    10**12,
    10**12 + 1,
    2**48,
    2**48 + 1,
    2**63 - 1,
    2**63,
    2**64,
    2**64 + 1,
]
# The words of requests; some are drawn more often. ACKNOWLEDGE is an ACK with a stamp.
REQUESTS = (
    "ACK RESET SHELVE UNSHELVE OOS DESIGN PRIO SETP VAL VAL CLOCK"
    " STATE LIST FLOOD STALE CHATTER PLANT ATTR ROW ROW ROW ACKNOWLEDGE SINCE"
).split()


def draw_number(dice):
    kind = dice.randrange(8)
    if kind < 5:
        return dice.randrange(4)
    return dice.choice(NUMBERS) if kind < 7 else dice.getrandbits(dice.randrange(1, 72))


def draw_near(dice, number):
    """A number that often is this one, or less or more by a few."""
    return (
        max(0, number - dice.choice([0, 0, 0, 0, 1, -1, 2, 255, 256, 257])) if dice.randrange(4) else draw_number(dice)
    )


def draw_request(dice, plant):
    """A drawn request: its word and its numbers, most of which are fit for a plant."""
    word = dice.choice(REQUESTS)
    if word == "ACKNOWLEDGE":
        alarm = dice.randrange(4)
        return ["ACK", str(alarm), str(draw_near(dice, plant.alarms[alarm].order))]
    fields = [word]
    if word == "LIST":
        fields.append(dice.choice("PAS"))
    if word == "SINCE":
        return fields + [str(draw_near(dice, plant.count))] * (dice.randrange(8) > 0)
    if word == "CLOCK" and dice.randrange(16):
        return fields + [str(draw_near(dice, plant.now + 60))]
    if word not in ("STALE", "CHATTER", "PLANT"):
        fields.append(str(2 if word == "RESET" and dice.randrange(2) else draw_number(dice)))
    if word in ("SHELVE", "PRIO"):
        fields.append(str(draw_number(dice)))
    if word in ("VAL", "SETP"):
        fields.append(dice.choice(["", "", "-"]) + str(draw_number(dice)))
    if word in ("OOS", "DESIGN"):
        fields.append(dice.choice(["ON", "OFF"]))
    return fields


def break_fields(dice, fields):
    at, kind = dice.randrange(len(fields)), dice.randrange(6)
    if kind == 0:
        fields.insert(at, fields[at])
    elif kind == 1:
        del fields[at]
    elif kind == 2:
        fields[at] += dice.choice([" ", "\r", "0", "\t", "\0", "-"])
    elif kind == 3:
        fields[at] = dice.choice([" ", "0", "-", "+"]) + fields[at]
    elif kind == 4:
        fields[at] = fields[at].lower()
    else:
        fields[at] += "7" * dice.randrange(1, 140)


def break_bytes(dice, line):
    at = dice.randrange(len(line) + 1)
    kind = dice.randrange(4)
    if kind == 0 and at < len(line):
        line[at] ^= 1 << dice.randrange(8)
    elif kind == 1:
        line[at:at] = bytes([dice.randrange(256)])
    elif kind == 2:
        del line[at : at + 1]
    else:
        line += b"A" * (dice.randrange(124, 135) - len(line))


def draw_line(dice, plant):
    """A line without its LF, for a plant."""
    request = draw_request(dice, plant)
    slot = dice.choice([0, 15, 16, 16, 16, 17, 17, 18, dice.randrange(20)])
    if dice.randrange(2):
        slot = {"VAL": 16, "DESIGN": 16, "CLOCK": 17}.get(request[0], dice.randrange(16))
    fields = [str(slot), str(draw_number(dice)), *request]
    if dice.randrange(3) == 0:
        break_fields(dice, fields)
    line = bytearray(" ".join(fields), "latin-1")
    if dice.randrange(4) == 0:
        break_bytes(dice, line)
    return bytes(line).replace(b"\n", b"")
