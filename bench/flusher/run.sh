#!/usr/bin/env bash
# Times requests on their way from a console to a receipt, beside plain Rust on the same input: refusals, and actions
# that are committed to a file in memory. Twice: beside rings that tell of their places by exchanges, as those of the
# toolchain do, and by plain stores. It needs rt and rustc.
set -eu
here="$(cd "$(dirname "$0")" && pwd)"
# shellcheck source=bench/turns.sh
. "$here/../turns.sh"

build
device="$(mktemp /dev/shm/alm_speed.XXXXXX)"
trap 'rm -rf "$work" "$device"' EXIT
for how in exchanges stores; do
    echo "beside plain Rust whose rings tell by $how:"
    rustc --edition 2021 -O --cfg "$how" --check-cfg 'cfg(exchanges, stores)' "$here/plain.rs" -o "$work/plain"
    rm -f "$work/times"
    run_in_turns flusher "$device"
    print_ratios ns 'key ~ /^accepted/ ? sum[key] / 2 : sum[key]'
done
