#!/usr/bin/env bash
# Requests a second through a slot's two rings between two threads, beside the same exchange over channels of Rust's
# library: polled by turns as the rings are, and with the calls that block. They run in turns; medians and ranges of
# nine. Each program looks into each request and each receipt, and has to print that all went through. It needs rt and
# rustc. A number after it says how many requests.
set -eu
here="$(cd "$(dirname "$0")" && pwd)"
# shellcheck source=bench/turns.sh
. "$here/../turns.sh"
requests=${1:-10000000}

build
for program in polled blocking; do
    rustc -O "$here/$program.rs" -o "$work/$program"
done
python3 - "$requests" "$speed" "$work/polled" "$work/blocking" <<'PY'
import statistics
import subprocess
import sys
import time

requests = sys.argv[1]
programs = dict(zip(["rings", "channels, polled", "channels, blocking"], sys.argv[2:]))


def rate(program):
    words = [program, "rings", requests] if program == programs["rings"] else [program, requests]
    begin = time.perf_counter()
    printed = subprocess.run(words, stdout=subprocess.PIPE, text=True, check=True).stdout
    seconds = time.perf_counter() - begin
    if printed != f"sent {requests} taken {requests} released {requests} received {requests}\n":
        sys.exit(f"{program} printed {printed}")
    return int(requests) / seconds / 1e6


rates = list(zip(*[[rate(program) for program in programs.values()] for _ in range(9)]))
medians = dict(zip(programs, map(statistics.median, rates)))
for name, column in zip(programs, rates):
    times = medians["rings"] / medians[name]
    print(f"{name:18} {medians[name]:5.1f} million requests a second ({min(column):.1f} to {max(column):.1f}), rings {times:.2f} times as many")
PY
