#!/usr/bin/env bash
# Times actions, seconds and fills of the linked plant beside plain Rust on the same input. It needs rt and rustc.
set -eu
here="$(cd "$(dirname "$0")" && pwd)"
# shellcheck source=bench/turns.sh
. "$here/../turns.sh"

build
rustc -O "$here/plain.rs" -o "$work/plain"
run_in_turns plant
print_ratios ns 'key == "fill" ? 2000 : key == "plain_fill" ? 2 : sum[key]'
