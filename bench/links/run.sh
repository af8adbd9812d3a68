#!/usr/bin/env bash
# Times the chains and the wheel beside plain Rust on the same input. It needs rt and rustc.
set -eu
here="$(cd "$(dirname "$0")" && pwd)"
# shellcheck source=bench/turns.sh
. "$here/../turns.sh"

build
rustc -O "$here/plain.rs" -o "$work/plain"
run_in_turns links
print_ratios ms 1e6
