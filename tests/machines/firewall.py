#!/usr/bin/env python3
"""Who may connect to a server's ports behind the rules of deploy/nft/alarms.nft.

    tests/machines/firewall.py PROGRAM [--short]

In a network namespace of its own, with the rules of that file, whose users and groups are given numbers here. Each of
several users connects to each of the 18 ports: consoles by their group, feed, clock, archive and others by their users,
and root; whoever may is answered, and each other one is refused at once. Without the rules all are answered. A
connection that is open when the rules come goes on; they can be loaded twice. It needs root, nft (Debian: nftables) and
ip (iproute2), and ends with status 77 where one isn't there.
"""
import os
import re
import shutil
import socket
import subprocess
import sys
import time

from lib.places import DEPLOY
from lib.program import PLANT, Wrong, as_user, begin, check, finish, run_words

RULES = str(DEPLOY / "nft" / "alarms.nft")
PORT, SLOTS = 5000, range(18)
CONSOLES, FEED, CLOCK = range(16), 16, 17
# Numbers in place of the names in the rules.
NUMBERS = {
    "root": 0,
    "alarms-consoles": 64_001,
    "alarms-feed": 64_002,
    "alarms-clock": 64_003,
    "alarms-metrics": 64_004,
    "alarms": 64_005,
    "alarms-list": 64_006,
}
# Who connects: user, own group, further groups; and to which slots they may.
WHO = [
    ("root", 0, 0, [], set(SLOTS)),
    ("an operator whose group is the consoles'", 64_010, 64_001, [], set(CONSOLES)),
    ("an operator who is in the consoles' group beside", 64_010, 64_010, [64_001], set()),
    ("the feed", 64_002, 64_002, [], {FEED}),
    ("the clock", 64_003, 64_003, [], {CLOCK}),
    ("call-out and metrics", 64_004, 64_004, [], {10, 15}),
    ("the alarm list", 64_006, 64_007, [], {12}),
    ("archive and metrics with the device's", 64_005, 64_008, [], {13, 15}),
    ("another user", 64_011, 64_011, [], set()),
]


def rules():
    """The file with numbers in place of names."""
    with open(RULES, encoding="utf-8") as file:
        text = file.read()
    names = set(re.findall(r'meta sk[ug]id "([^"]+)"', text))
    check(names == set(NUMBERS), "the rules name", names)
    return re.sub(r'(meta sk[ug]id) "([^"]+)"', lambda found: f"{found[1]} {NUMBERS[found[2]]}", text)


def load(path):
    run = subprocess.run(["nft", "-f", path], capture_output=True, text=True, timeout=60)
    check(run.returncode == 0, "nft", run.stderr)


def is_answered(address, slot):
    try:
        with socket.socket() as client:
            client.settimeout(5)
            client.connect((address, PORT + slot))
            client.sendall(b"1 STATE 0\n")
            return client.recv(64).startswith(b"1 STATE")
    except ConnectionRefusedError:
        return False


def answered(address, user, group, groups):
    """The slots at which this user is answered."""
    text = as_user(user, group, groups, lambda: " ".join(str(slot) for slot in SLOTS if is_answered(address, slot)))
    check(re.fullmatch(r"[\d ]*", text), "a client of user", user, text)
    return set(map(int, text.split()))


def within(program, folder):
    """In the namespace."""
    device, path, done = os.path.join(folder, "plant.device"), os.path.join(folder, "alarms.nft"), 0
    subprocess.run(["ip", "link", "set", "lo", "up"], check=True)
    check(run_words(program, ["format", device, PLANT]).returncode == 0, "format")
    with open(path, "w", encoding="utf-8") as file:
        file.write(rules())
    with subprocess.Popen([program, "serve", device, "--port", str(PORT)], stdout=subprocess.PIPE) as server:
        try:
            check(server.stdout.readline() == f"serving {PORT}\n".encode(), "the server")
            for name, user, group, groups, _ in WHO:
                check(answered("127.0.0.1", user, group, groups) == set(SLOTS), name, "without rules")
            with socket.create_connection(("127.0.0.1", PORT), timeout=10) as open_one:
                for _ in range(2):
                    load(path)
                    open_one.sendall(b"1 STATE 0\n")
                    check(open_one.recv(64).startswith(b"1 STATE"), "an open connection behind the rules")
            for name, user, group, groups, may in WHO:
                for address in ("127.0.0.1", "localhost"):
                    began = time.monotonic()
                    found = answered(address, user, group, groups)
                    check(found == may, name, "was answered at", sorted(found), "of", address)
                    check(time.monotonic() - began < 20, name, "wasn't refused at once")
                    done += len(SLOTS)
        finally:
            server.kill()
    print(done)


def main():
    if sys.argv[1:2] == ["--within"]:
        within(*sys.argv[2:])
        return
    missing = [word for word in ("nft", "ip", "unshare") if not shutil.which(word)]
    if os.geteuid() != 0 or missing:
        print(f"firewall.py: left out: it needs root{''.join(f' and {word}' for word in missing)}")
        sys.exit(77)
    if subprocess.run(["unshare", "--net", "nft", "list", "ruleset"], capture_output=True, check=False).returncode != 0:
        print("firewall.py: left out: there are no network namespaces or no rules to be had")
        sys.exit(77)
    program, _, folder = begin("firewall.py", sys.argv, 1, 1)
    began = time.monotonic()
    run = subprocess.run(
        ["unshare", "--net", sys.executable, os.path.abspath(__file__), "--within", program, folder],
        stdout=subprocess.PIPE,
        text=True,
    )
    if run.returncode != 0:
        sys.exit(run.returncode)
    finish(
        "firewall.py",
        folder,
        (
            f"{run.stdout.strip()} connections of {len(WHO)} users behind the rules, none wrong,"
            f" {time.monotonic() - began:.0f} s"
        ),
    )


if __name__ == "__main__":
    try:
        main()
    except Wrong as wrong:
        sys.exit(f"firewall.py: {wrong}")
