"""A part of writeback.py: another process keeps the device's bytes in the kernel's cache while a sync fails, and the
server is started again.

It has the file mapped, and touches it without pause, or reads it without pause, as three processes do. The tool
`alm_uncache` comes before each start, as in the unit: with the file mapped it refuses, and nothing is answered; once it
isn't, or where it is only read, it lets the server start. Without the tool answered actions are lost: so the script is
tested.
"""
import subprocess
import sys

from lib.places import TOOLS
from lib.program import check

TOOL = str(TOOLS / "alm_uncache")
HOLDERS = {
    "mapped": [
        """
import mmap, os, sys, time
whole = mmap.mmap(os.open(sys.argv[1], os.O_RDWR), 0)
print(flush=True)
while True:
    for place in range(0, len(whole), 4096): whole[place]
    time.sleep(0.002)
"""
    ],
    "read": [
        """
import os, sys
file = os.open(sys.argv[1], os.O_RDONLY)
print(flush=True)
while True: os.pread(file, 65536, 0)
"""
    ]
    * 3,
}


class Holding:
    """Processes that keep a file in the cache."""

    def __init__(self, device, how):
        self.processes = [
            subprocess.Popen([sys.executable, "-c", text, device], stdout=subprocess.PIPE) for text in HOLDERS[how]
        ]
        for process in self.processes:
            process.stdout.readline()

    def end(self):
        for process in self.processes:
            process.kill()
            process.wait()
            process.stdout.close()
        self.processes = []


def may_start(device, holding, how):
    """What the unit does before a start, until the server may start: at once, or once the file isn't mapped any
    more."""
    if how == "mapped":
        run = uncache(device, 1)
        check(
            run.returncode == 1 and b"pages stay" in run.stderr, "the tool lets a server start beside a mapping:", run
        )
        check(str(holding.processes[0].pid).encode() in run.stderr, "it doesn't name the process:", run.stderr)
        holding.end()
    run = uncache(device, 20)
    check(run.returncode == 0, "the tool never lets a server start:", run.stderr)


def uncache(device, seconds):
    return subprocess.run([sys.executable, TOOL, device, "--within", str(seconds)], capture_output=True, timeout=60)
