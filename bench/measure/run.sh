#!/usr/bin/env bash
# Times each call of the measure beside plain Rust on the same input. It needs rt and rustc.
set -eu
here="$(cd "$(dirname "$0")" && pwd)"
# shellcheck source=bench/turns.sh
. "$here/../turns.sh"

build
rustc -O "$here/plain.rs" -o "$work/plain"
run_in_turns measure
print_ratios ns 'key ~ /^annunciated/ ? 50000000 : 1000000'
