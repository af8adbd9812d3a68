#!/usr/bin/env bash
# Lines a second of the desk over a device on a memory file system, beside a plain C loop that asks the same of the
# system for each: two writes and two fdatasync. Words: how many lines (200000), and a folder on a memory file system
# (/dev/shm).
set -eu
top=$(cd "$(dirname "$0")/../.." && pwd)
lines=${1:-200000}
folder=$(mktemp -d "${2:-/dev/shm}/desk-device.XXXXXX")
trap 'rm -rf "$folder"' EXIT
program=$top/crates/alm_server/out/alm_server
cc -O2 -o "$folder/plain" "$top/bench/desk-device/plain.c"
sed 's/^size = .*/size = 40000000/' "$top/examples/plant.toml" >"$folder/plant.toml"
awk -v lines="$lines" 'BEGIN { for (i = 1; i <= lines; i++) printf "16 %d VAL 0 %d\n", i, i % 2 ? 800 : 700 }' >"$folder/lines"
seconds() { local from to; from=$(date +%s.%N); "$@"; to=$(date +%s.%N); echo "$to - $from" | bc; }
for turn in 1 2 3; do
    "$program" format "$folder/device" "$folder/plant.toml" >/dev/null
    desk=$(seconds sh -c "'$program' desk '$folder/device' <'$folder/lines' >'$folder/replies'")
    plain=$(seconds "$folder/plain" "$folder/file" "$lines")
    [ "$(grep -c ' OK ' "$folder/replies")" = "$lines" ]
    echo "turn $turn: desk $(echo "$lines / $desk" | bc) lines a second, plain C $(echo "$lines / $plain" | bc), $(echo "scale=2; $plain / $desk" | bc)"
done
"$program" format "$folder/device" "$folder/plant.toml" >/dev/null
if command -v strace >/dev/null; then
    strace -f -c -o "$folder/calls" "$program" desk "$folder/device" <"$folder/lines" >/dev/null
    head -12 "$folder/calls"
fi
