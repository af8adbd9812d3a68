#!/usr/bin/env bash
# Times checkpoints and the making of their bodies, and commits, to a file in memory, beside plain Rust: a copy of as
# many bytes, and the same calls. Then opening the device with an empty segment and with a full one, each time by a
# process of its own, as a server does. It needs rt and rustc.
set -eu
here="$(cd "$(dirname "$0")" && pwd)"
# shellcheck source=bench/turns.sh
. "$here/../turns.sh"

build
device="$(mktemp /dev/shm/alm_speed.XXXXXX)"
image="$device.image"
trap 'rm -rf "$work" "$device" "$image"' EXIT
rustc --edition 2021 -O "$here/plain.rs" -o "$work/plain"
run_in_turns keeper "$device"
print_ratios us 'key == "formatted" || key == "left" ? 1000 : 1000 * sum[key]'

# The same device with the first gate of each half's segment closed.
cp "$device" "$image"
for gate in 3289216 23355625; do
    printf '\0' | dd of="$image" bs=1 seek="$gate" conv=notrunc status=none
done
rustc --edition 2021 -O "$here/opening.rs" -o "$work/plain"
for opened in "$image" "$device"; do
    rm -f "$work/times"
    run_in_turns open "$opened"
    print_ratios us 1000
done
