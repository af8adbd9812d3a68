#!/usr/bin/env bash
# Lines a second of the built program, in 16 MB of address space, beside the same lines through cat.
set -eu
here="$(cd "$(dirname "$0")" && pwd)"
# shellcheck source=bench/turns.sh
. "$here/../turns.sh"

"$top/alm_server" desk </dev/null
program=$top/crates/alm_server/out/alm_server
lines=${1:-1000000}
for kind in plain mixed; do
    python3 "$here/lines.py" "$kind" "$lines" >"$work/in"
    python3 - "$program" "$work/in" "$lines" "$kind" <<'PY'
import subprocess, sys, time

program, path, lines, kind = sys.argv[1], sys.argv[2], int(sys.argv[3]), sys.argv[4]


def seconds(words):
    best = None
    for _ in range(3):
        with open(path) as given:
            begin = time.perf_counter()
            subprocess.run(words, stdin=given, stdout=subprocess.DEVNULL, check=True)
            took = time.perf_counter() - begin
        best = took if best is None else min(best, took)
    return best


desk = seconds(["bash", "-c", 'ulimit -v 16384; exec "$0" desk', program])
cat = seconds(["cat"])
print(f"{kind}: desk {lines / desk / 1e6:.2f} million lines a second, cat {lines / cat / 1e6:.0f}")
PY
done
