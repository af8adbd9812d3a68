#!/usr/bin/env bash
# Times the largest image, written and read, beside a loop in C that copies and sums as many bytes, in turns, and prints
# the ratios of the best times. It needs rt and cc.
set -eu
here="$(cd "$(dirname "$0")" && pwd)"
# shellcheck source=bench/turns.sh
. "$here/../turns.sh"

build
cc -O2 "$here/plain.c" -o "$work/plain"

for _ in 1 2 3 4 5; do
    "$speed" codec 2>> "$work/times" > "$work/sums"
    "$work/plain" >> "$work/times"
done

awk '
    !($1 in best) || $3 < best[$1] { best[$1] = $3 }
    END {
        rounds = 50
        printf "copy and sum in C %7.3f ms an image\n", best["copy"] / 1e6 / rounds
        printf "written           %7.3f ms an image   ratio %.2f\n", best["write"] / 1e6 / rounds, best["write"] / best["copy"]
        printf "read and checked  %7.3f ms an image   ratio %.2f\n", best["read"] / 1e6 / rounds, best["read"] / best["copy"]
    }' "$work/times"
