#!/usr/bin/env bash
# Times a full segment of 16 MiB, scanned, beside a loop in C that reads and checks the same fields. It needs rt and cc.
set -eu
here="$(cd "$(dirname "$0")" && pwd)"
# shellcheck source=bench/turns.sh
. "$here/../turns.sh"

build
cc -O2 "$here/plain.c" -o "$work/plain"
run_in_turns segment
print_ratios 'ms a scan' '20e6'
