#!/usr/bin/env bash
# Says which of the things that the scripts here can't do without this machine lacks; the status is then 1.
set -u
status=0

lacks() {
    echo "needs: $1" >&2
    status=1
}

command -v cc >/dev/null || lacks 'no C compiler, cc'
command -v patch >/dev/null || lacks 'no patch'
if ! command -v python3 >/dev/null; then
    lacks 'no python3'
elif ! python3 -c 'import sys; sys.exit(sys.version_info < (3, 11))'; then
    lacks "python3 is $(python3 --version 2>&1), and has to be 3.11 or later"
fi
exit $status
