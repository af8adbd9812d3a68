"""Prints desk lines over the worked table: `plain` is VAL, ACK and STATE; `mixed` half VAL, a quarter ACK, the rest
CLOCK, SHELVE, LIST."""
import random
import sys

kind, count = sys.argv[1], int(sys.argv[2])
random.seed(1)
moment = 1000


def value(i):
    alarm = i % 2
    high = (i // 2) % 2 == 0
    return f"16 {i} VAL {alarm} {(800 if high else 700) if alarm == 0 else (100 if high else 200)}"


def rest(i):
    global moment
    which = (i // 4) % 3
    if which == 0:
        moment += random.randrange(1, 5)
        return f"17 {i} CLOCK {moment}"
    if which == 1:
        return f"{i % 16} {i} SHELVE {i // 12 % 2} {random.randrange(1, 60)}"
    return f"{i % 16} {i} LIST {random.choice(['P 1', 'A 0', 'S 7'])}"


out = []
for i in range(count):
    if i % 4 < 2:
        out.append(value(i))
    elif i % 4 == 2:
        out.append(f"0 {i} ACK {i // 4 % 4}")
    else:
        out.append(f"0 {i} STATE {i // 4 % 4}" if kind == "plain" else rest(i))
print("\n".join(out))
