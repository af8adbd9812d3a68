#!/usr/bin/env bash
# What proofs leave to tests, at the built program: each script of the folders pages, program, tools and machines, and a
# line of summary of each. A script is what may be executed there; what else lies there is a part of one.
#
#     tests/all.sh [--short] [PROGRAM]
#
# Without a PROGRAM it is the launcher's, which is proved and built first if need be. With --short it takes some four
# minutes. A script that can't run here ends with status 77 and says why: it is left out. One that finds something wrong
# doesn't end the others. The last line counts them, and the status is 0 only where none found something wrong.
set -u
top=$(cd "$(dirname "$0")/.." && pwd)
program=
short=()
# Seconds that a script may take. One that hangs is ended with all that it started; at a terminal it stays in the
# foreground, so that Ctrl-C ends it.
longest=14400
bounds=(--kill-after=30)
[ ! -t 0 ] || bounds+=(--foreground)
for word in "$@"; do
    case $word in
    --short) short=(--short) longest=900 ;;
    -*) echo "all: $word is no word of it: tests/all.sh [--short] [PROGRAM]" >&2 && exit 2 ;;
    *) program=$(readlink -f "$word") ;;
    esac
done
log=$(mktemp -d)
clients=
passed=0
wrong=()
left_out=()
# What runs beside is ended too, however this script ends.
trap '[ -z "$clients" ] || kill "$clients" 2>/dev/null; wait; rm -rf "$log"' EXIT
trap 'exit 130' INT TERM

# Takes note of how a script ended: 77 is one that was left out, and has said why.
note() {
    case $2 in
    0) passed=$((passed + 1)) ;;
    77) left_out+=("$1") ;;
    124 | 137) # by `timeout`
        echo "$1: not done within $longest seconds"
        wrong+=("$1")
        ;;
    *) wrong+=("$1") ;;
    esac
}

echo "all: needs Python 3.11 and a C compiler, cc; refused.py also what \`rt ci\` builds, writeback.py also root and file systems, see its page"
echo "all: uses tmux, systemd-analyze, promtool, chromium, selenium, aiohttp, nginx and nft where they are there, mosquitto too; and systemd-nspawn over a Debian in the folder DEBIAN_ROOT, see machines/container.py"
"$top/tests/needs.sh" || exit 2
if [ -z "$program" ]; then
    program=$top/crates/alm_server/out/alm_server
    # Proves and builds the program if need be, which says how far it is; called without words the program says `fault
    # usage`.
    "$top/alm_server" 2>&1 >/dev/null | grep --line-buffered -v '^fault usage$' >&2
    if [ "${PIPESTATUS[0]}" -gt 125 ]; then
        echo "all: the program isn't built" >&2
        exit 2
    fi
fi

# tools/clients.py mostly waits for its tools, so the others run beside it.
timeout --kill-after=30 "$longest" "$top/tests/tools/clients.py" "$program" "${short[@]}" >"$log/clients" 2>&1 &
clients=$!
for path in "$top"/tests/{pages,program,tools,machines}/*.py; do
    script=$(basename "${path%.py}")
    if [ ! -x "$path" ] || [ "$script" = clients ]; then continue; fi
    words=("$program" "${short[@]}")
    case $path in */pages/*) words=() ;; esac # these read the repository alone
    timeout "${bounds[@]}" "$longest" "$path" "${words[@]}"
    note "$script" $?
done
wait "$clients"
note clients $?
clients=
cat "$log/clients"

echo "all: $passed passed, ${#wrong[@]} failed${wrong[*]:+: ${wrong[*]}}; ${#left_out[@]} left out${left_out[*]:+: ${left_out[*]}}"
[ ${#wrong[@]} -eq 0 ]
