# shellcheck shell=bash
# What the benchmarks share: our program of benchmarks and a plain one beside it, in turns, and the ratios of their best
# times. A run.sh sources it; `work` is a folder that goes when it ends.
top="$(cd "$(dirname "${BASH_SOURCE[0]}")/.." && pwd)"
work="$(mktemp -d)"
trap 'rm -rf "$work"' EXIT

# Our benchmarks: the first word is which.
speed="$top/crates/alm_speed/out/alm_speed"

# Builds them: the one that takes no time is run.
build() {
    (cd "$top/crates/alm_speed" && rt run -- rings 1 > "$work/build.log" 2>&1) || {
        tail -20 "$work/build.log"
        exit 1
    }
}

# Runs our benchmark of a name, and the plain program, with the same arguments, five times. Each says on its standard
# error or output what it timed, its answer and the nanoseconds.
run_in_turns() {
    local name="$1"
    shift
    for _ in 1 2 3 4 5; do
        "$speed" "$name" "$@" 2>&1 > "$work/sums" | sed 's/^/ours /' >> "$work/times"
        "$work/plain" "$@" | sed 's/^/plain /' >> "$work/times"
    done
}

# Prints the best times in a unit, which is so many nanoseconds (an expression over `key`), and their ratio. The answers
# have to be the same. What the plain program doesn't do is printed alone.
print_ratios() {
    awk '
        { key = $2; if (!(key in sum)) { order[++n] = key; sum[key] = $3 } }
        sum[key] != $3 { print "the answers differ at " key; bad = 1 }
        !(($1, key) in best) || $4 < best[$1, key] { best[$1, key] = $4 }
        END {
            for (i = 1; i <= n; i++) {
                key = order[i]
                unit = '"$2"'
                ours = best["ours", key]
                if (!(("plain", key) in best)) {
                    printf "%-28s ours %8.2f '"$1"'\n", key, ours / unit
                    continue
                }
                plain = best["plain", key]
                printf "%-28s ours %8.2f '"$1"'   plain %8.2f '"$1"'   ratio %.2f\n", key, ours / unit, plain / unit, ours / plain
            }
            exit bad
        }' "$work/times"
}
