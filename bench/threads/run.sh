#!/usr/bin/env bash
# Times the server's threads beside plain Rust threads with the same rings and batches, over a file whose syncs take 0.2
# ms: 18 slots that ask with one request out and with 64, each of which is stored before it is answered; and looks, of
# one reader and of eight, beside a slot that asks, where plain Rust has an RwLock round the plant. It needs rt, rustc
# and a C compiler.
set -eu
here="$(cd "$(dirname "$0")" && pwd)"
# shellcheck source=bench/turns.sh
. "$here/../turns.sh"

build
device="$(mktemp /dev/shm/alm_speed.XXXXXX)"
trap 'rm -rf "$work" "$device"' EXIT
cc -O2 -shared -fPIC -o "$work/sync.so" "$here/../serve/sync.c"
rustc --edition 2021 -O --cfg exchanges --check-cfg 'cfg(exchanges, stores)' "$here/plain.rs" -o "$work/plain"
SYNC_COUNT="$work/count" LD_PRELOAD="$work/sync.so" run_in_turns threads "$device"
print_ratios ns 'sum[key]'
