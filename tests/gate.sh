#!/usr/bin/env bash
# The whole gate: `rt ci` proves everything from nothing and runs the tests of each crate, and eight wrong alarm models
# have to be refused by their laws. Then `tests/all.sh --short` tries the program that was built. What happens to a
# file, no contract and no test of a crate can see.
#
#     tests/gate.sh
#
# The last line is `N passed, N failed` over all, and the status is 0 only where all are well. What the machine lacks is
# a failure. So is a wrong body that `rt ci` accepts though it shows nothing: one that can't be read, or that is refused
# only because a proof file names what it took away.
set -uo pipefail
top=$(cd "$(dirname "$0")/.." && pwd)
program=$top/crates/alm_server/out/alm_server
passed=0 failed=0

# Ends with what was counted.
finish() {
    echo "$passed passed, $failed failed"
    [ "$failed" -eq 0 ]
    exit
}

# One more that failed, and why.
fail() {
    echo "gate: $1" >&2
    failed=$((failed + 1))
}

# Runs a command, shows what it says, and adds what its last line counts. It fails too where that line is none, or says
# less than its status.
add() {
    local counted status
    "$@" 2>&1 | tee "$room/said"
    status=$?
    counted=$(tail -n 1 "$room/said" | sed -nE 's/^(all: )?([0-9]+) passed, ([0-9]+) failed.*/\2 \3/p')
    [ -n "$counted" ] || counted="0 0"
    passed=$((passed + ${counted% *}))
    failed=$((failed + ${counted#* }))
    if [ $status -ne 0 ] && [ "${counted#* }" -eq 0 ]; then fail "\`$*\` ended with status $status"; fi
    if [ "$counted" = "0 0" ] && [ $status -eq 0 ]; then fail "\`$*\` counted nothing"; fi
}

# Fails for each wrong body that shows nothing, by what `rt ci` has said of it.
look_at_edits() {
    local line
    while read -r line; do fail "$line"; done < <(sed -nE 's/^rt: ([^:]+): .*(BAD EDIT|only because a proof file names).*/\1 shows nothing: "\2"/p' "$room/said")
}

# Tells the launcher of which sources the program was built, so that it doesn't prove them again. If one was changed
# meanwhile, it does.
keep_sum() {
    echo "$1" >"$program.sources"
}

if ! "$top/tests/needs.sh"; then
    fail "the scripts of tests/ can't run on this machine"
    finish
fi
if ! command -v rt >/dev/null; then
    fail "the Rattle toolchain's command rt isn't on the PATH (README.md)"
    finish
fi
room=$(mktemp -d)
trap 'rm -rf "$room"' EXIT
trap 'exit 130' INT TERM
touch "$room/begun"
sum=$(. "$top/alm_server" && sum_of_sources)
cd "$top" || exit 2
add rt ci </dev/null
look_at_edits
add "$top/tests/wrong_models.py" --gate
if [ -x "$program" ] && [ "$program" -nt "$room/begun" ]; then
    keep_sum "$sum"
    add "$top/tests/all.sh" --short "$program"
else
    fail "rt ci built no program, so the scripts of tests/ didn't run"
fi
finish
