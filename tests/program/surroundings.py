#!/usr/bin/env python3
"""What surrounds the process: limits, locks, modes, a full disk, a sync that hangs, other addresses, urgent data,
browsers.

    tests/program/surroundings.py PROGRAM [--short]

A server is asked by requests of HTTP, cut at each byte, and by a real browser (Debian: chromium), which is left out
with a word where it isn't there. It is started at each limit of descriptors, and with too small a limit of a file's
size. `format` is tried beside a server, a desk and a reader, on a disk that is full (root, for a small file system) and
for its modes and its room; `show` and `export` beside a server that starts. A sync hangs, with a patience and without
one.
"""
import os
import random
import resource
import shutil
import socket
import stat
import subprocess
import sys
import time

from lib.places import EXAMPLES
from lib.program import PLANT, Desk, Fault, Wrong, begin, check, finish, free_ports, preload, run_words
from surrounded import Served, answers, asked, came, limited, own_addresses, serve_until, until
from http_requests import METHODS, NEAR, PAGE, REBOUND, REST, TOKEN

REFINERY = str(EXAMPLES / "refinery.toml")
CLOCK = 17
SLOTS = 18


class Surroundings:
    """The program under limits, modes, locks, full disks and requests of HTTP."""

    def __init__(self, program, folder):
        self.program, self.folder, self.done = program, folder, 0
        self.library = preload(folder)
        self.device = os.path.join(folder, "plant.device")
        self.format(self.device, PLANT)

    def format(self, device, table):
        run = run_words(self.program, ["format", device, table])
        check(run.returncode == 0, "format", run.stderr)

    def refused(self, words, line, **more):
        """A command that ends by this fault, with nothing printed."""
        run = subprocess.run([self.program, *words], capture_output=True, timeout=60, **more)
        self.done += 1
        check((run.returncode, run.stdout, run.stderr) == (3, b"", line), words, run.returncode, run.stdout, run.stderr)

    def requests_of_http(self, step):
        """Each method, cut at each byte, at a console's port and the clock's: no byte comes back and nothing is
        done."""
        with Served(self.program, self.device) as server:
            for method in METHODS:
                for cut in range(1, len(method) + 1, step):
                    for slot in (0, CLOCK):
                        self.http(server, slot, method, cut)
            check(server.ask(CLOCK, b"1 STATE 0\n") == b"1 STATE 0 NORM 0 - -\n", "after requests of HTTP")
            for _ in range(400 // step):
                self.drawn_request(server)
            check(server.ask(CLOCK, b"1 STATE 0\n") == b"1 STATE 0 NORM 0 - -\n", "after requests of drawn methods")
            for line in NEAR:
                check(server.ask(0, line + b"\n") == b"0 NO 13\n", line)
                self.done += 1
            self.later_request(server)

    def drawn_request(self, server):
        """A request of any method and target, behind empty lines or none, in two pieces."""
        method = bytes(random.choices(TOKEN, k=random.randint(1, 24)))
        target = b"/" + bytes(random.choices(TOKEN, k=random.choice((0, 5, 300))))
        version = b" HTTP/%d.%d" % (random.randrange(10), random.randrange(10))
        text = (
            random.choice((b"", b"\r\n", b"\n\r\n"))
            + method
            + b" "
            + target
            + version
            + random.choice((b"\r\n", b"\n"))
        )
        self.http(
            server, random.choice((0, CLOCK)), text, random.randrange(1, len(text)), b"\r\n\n1 CLOCK 1000\n2 STATE 0\n"
        )

    def later_request(self, server):
        """A line that isn't the first may be anything: it is answered, and the connection goes on."""
        with server.connect(0) as client, client.makefile("rb") as replies:
            client.sendall(b"1 STATE 0\nNAQ / HTTP/1.1\n2 STATE 0\n")
            said = [replies.readline() for _ in range(3)]
        check(
            said == [b"1 STATE 0 NORM 0 - -\n", b"0 NO 13\n", b"2 STATE 0 NORM 0 - -\n"],
            "a request behind a line",
            said,
        )
        self.done += 1

    def http(self, server, slot, method, cut, rest=REST):
        """A request in two pieces is answered by nothing, but for the empty lines that came before it."""
        with server.connect(slot) as client:
            client.setsockopt(socket.IPPROTO_TCP, socket.TCP_NODELAY, 1)
            client.sendall(method[:cut])
            time.sleep(0.001)
            try:
                client.sendall(method[cut:] + rest)
                came = self.replies(client)
            except (BrokenPipeError, ConnectionResetError):
                came = b""
        self.done += 1
        check(
            came in (b"", b"0 NO 13\n", b"0 NO 13\n" * 2)[: 1 + method[:cut].count(b"\n")],
            "HTTP",
            method,
            cut,
            "slot",
            slot,
            "was answered",
            came,
        )

    def replies(self, client):
        """What comes up to the end of a connection, or in a second without a byte."""
        client.settimeout(1)
        came = b""
        try:
            while piece := client.recv(64):
                came += piece
        except TimeoutError:
            came += b".. and it goes on"
        return came

    def browser(self):
        """A page that fetches, opens WebSockets and posts a form at each port does nothing to the plant."""
        chromium = shutil.which("chromium")
        if chromium is None:
            print("surroundings.py: no chromium, so no browser was tried (Debian: chromium)")
            return
        page = os.path.join(self.folder, "page.html")
        with Served(self.program, self.device) as server:
            with open(page, "w", encoding="utf-8") as file:
                file.write(PAGE.format(port=server.port))
            words = [
                "--headless=new",
                "--no-sandbox",
                "--disable-gpu",
                "--disable-web-security",
                f"--user-data-dir={self.folder}/chromium",
                "--virtual-time-budget=8000",
                "--dump-dom",
                "file://" + page,
            ]
            subprocess.run([chromium, *words], capture_output=True, timeout=90, check=False)
            for slot in (0, 16, CLOCK):
                check(server.ask(slot, b"1 STATE 0\n") == b"1 STATE 0 NORM 0 - -\n", "a page commanded slot", slot)
        self.done += 1

    def rebound(self):
        """A page whose name led to another process leads to a server's console now, and asks it by a method of its own:
        it acknowledges nothing."""
        chromium = shutil.which("chromium")
        if chromium is None:
            return
        port = free_ports()
        with socket.create_server(("127.0.0.1", port)) as pages:
            words = [
                "--headless=new",
                "--no-sandbox",
                "--disable-gpu",
                f"--user-data-dir={self.folder}/rebound",
                "--host-resolver-rules=MAP plant.test 127.0.0.1",
                f"http://plant.test:{port}/",
            ]
            browser = subprocess.Popen([chromium, *words], stdout=subprocess.DEVNULL, stderr=subprocess.DEVNULL)
            serve_until(pages, b"NAQ ", REBOUND)
        try:
            with Served(self.program, self.device, port=port) as server:
                check(server.ask(16, b"1 VAL 0 900\n") == b"1 OK 1\n", "a value isn't taken")
                time.sleep(4)
                said = server.ask(16, b"2 STATE 0\n")
                check(said == b"2 STATE 1 UNACK 1 - -\n", "a page of a rebound name commanded a console:", said)
        finally:
            browser.kill()
            browser.wait()
        self.done += 1

    def urgent(self, rounds):
        """A line behind a byte of urgent data is answered, without another byte that comes."""
        with Served(self.program, self.device) as server:
            for _ in range(rounds):
                with server.connect(0) as client:
                    self.urgent_once(server, client)
                self.done += 1

    def urgent_once(self, server, client):
        client.settimeout(3)
        server.process.send_signal(19)  # SIGSTOP: all of it has come by the first read
        client.sendall(b"1 STATE 0\n")
        client.send(b"!", socket.MSG_OOB)
        client.sendall(b"2 STATE 0\n")
        server.process.send_signal(18)
        came = b""
        try:
            while came.count(b"\n") < 2:
                came += client.recv(64)
        except TimeoutError:
            pass
        check(came == b"1 STATE 0 NORM 0 - -\n2 STATE 0 NORM 0 - -\n", "urgent data", came)

    def hanging_sync(self):
        """A sync hangs for seconds. With a patience the clients are closed, and each new one at once, until it comes
        back. Without one nobody is closed. What was answered stays, and only connections that were served count."""
        for options in ((), ("--patience", "1")):
            device = os.path.join(self.folder, "hangs.device")
            self.format(device, PLANT)
            fault = Fault(self.library, "fdatasync", self.first_sync(device) + 1, "held")
            with Served(self.program, device, options=("--conns", "4", *options), loaded=fault.loaded) as server:
                self.hang(server, fault, bool(options))
            shown = run_words(self.program, ["show", device]).stdout
            check(shown.startswith(b"NOW 1002 COUNT 3 "), options, "what was answered", shown)

    def first_sync(self, device):
        """How many syncs there are until one action is answered, on a copy."""
        copy, counts = device + ".copy", os.path.join(self.folder, "counts")
        shutil.copyfile(device, copy)
        with Served(
            self.program, copy, options=("--conns", "1"), loaded={"LD_PRELOAD": self.library, "ALM_COUNTS": counts}
        ) as server:
            check(server.ask(CLOCK, b"1 CLOCK 1000\n") == b"1 OK 1\n", "one action")
            server.process.wait(timeout=20)
        with open(counts, encoding="ascii") as file:
            return int(dict(line.split() for line in file)["fdatasync"])

    def hang(self, server, fault, is_patient):
        """Two clients are served, a sync hangs and comes back, and two more are served: the last of four."""
        clock, console = server.connect(CLOCK), server.connect(0)
        check(asked(clock, b"1 CLOCK 1000\n") == b"1 OK 1\n", "an action")
        check(asked(console, b"1 STATE 0\n") == b"1 STATE 1 NORM 0 - -\n", "a query")
        clock.sendall(b"2 CLOCK 1001\n")
        until(fault.was_met, "no sync hung")
        began = time.monotonic()
        if is_patient:
            check(came(console) == b"" and came(clock) == b"", "a client was answered while a sync hung")
            check(0.9 < time.monotonic() - began < 6, "the clients were closed after", time.monotonic() - began)
            for slot in (0, 5, CLOCK):
                began = time.monotonic()
                with server.connect(slot) as late:
                    check(came(late) == b"" and time.monotonic() - began < 1, "slot", slot, "was not closed at once")
        else:
            time.sleep(4)
            check(asked(console, b"2 STATE 0\n") == b"2 STATE 1 NORM 0 - -\n", "a query while a sync hangs")
        fault.forget()
        if not is_patient:
            check(came(clock) == b"2 OK 2\n", "the action behind a sync that hung")
        clock.close()
        console.close()
        until(lambda: answers(server, CLOCK, b"3 CLOCK 1002\n") == b"3 OK 3\n", "no clock is served after the sync")
        check(answers(server, 5, b"1 STATE 0\n") == b"1 STATE 3 NORM 0 - -\n", "a console after the sync")
        check(
            server.process.wait(timeout=20) == 0 and server.process.stdout.read() == b"stopped 3\n",
            "the end after four connections",
        )
        self.done += 1

    def descriptors(self, step):
        """With each limit either nothing is served, or all slots are."""
        served = 0
        for most in range(4, 100, step):
            with Served(self.program, self.device, {resource.RLIMIT_NOFILE: most}) as server:
                if server.serves:
                    served += 1
                    self.all_slots(server, most)
                else:
                    errors = server.process.communicate(timeout=20)[1]
                    known = (
                        errors in (b"fault net\n", b"fault io\n", b"fault memory\n") or b"error while loading" in errors
                    )
                    check(known and server.process.returncode != 0, "descriptors", most, errors)
            self.done += 1
        check(served > 0, "no limit of descriptors below 100 is enough")

    def all_slots(self, server, most):
        """All at once: each connection stays open until all are answered."""
        clients = [server.connect(slot) for slot in range(SLOTS)]
        for slot, client in enumerate(clients):
            client.sendall(b"1 STATE 0\n")
            try:
                line = client.recv(64)
            except TimeoutError:
                line = b""
            check(line == b"1 STATE 0 NORM 0 - -\n", "descriptors", most, "slot", slot, "isn't served", line)
        for client in clients:
            client.close()

    def sizes(self):
        """A file above the process's limit of size is refused by a line, and not by a signal; to be read it is
        opened."""
        size = os.path.getsize(self.device)
        for most in (1, 4_096, size - 1):
            limit = limited({resource.RLIMIT_FSIZE: most})
            self.refused(["desk", self.device], b"fault io\n", preexec_fn=limit, input=b"")
            self.refused(["serve", self.device, "--port", str(free_ports())], b"fault io\n", preexec_fn=limit)
            self.refused(["format", os.path.join(self.folder, "limited"), PLANT], b"fault io\n", preexec_fn=limit)
        shown = subprocess.run(
            [self.program, "show", self.device],
            capture_output=True,
            timeout=60,
            preexec_fn=limited({resource.RLIMIT_FSIZE: 1}),
        )
        check(shown.returncode == 0 and shown.stderr == b"", "show", shown.stderr)

    def modes(self):
        """A new device is its owner's alone, whatever the umask; an old one keeps its mode."""
        for mask in (0o000, 0o022, 0o077):
            made = os.path.join(self.folder, f"mode{mask:o}")
            run = subprocess.run([self.program, "format", made, PLANT], capture_output=True, timeout=60, umask=mask)
            check(run.returncode == 0, "format", run.stderr)
            check(stat.S_IMODE(os.stat(made).st_mode) == 0o600, "mode", oct(os.stat(made).st_mode), "umask", oct(mask))
            os.chmod(made, 0o640)
            self.format(made, PLANT)
            check(stat.S_IMODE(os.stat(made).st_mode) == 0o640, "mode of an old device")
            self.done += 1

    def room(self):
        """A new device has room on the disk for all its bytes that are used, and none is a hole."""
        made = os.path.join(self.folder, "room")
        self.format(made, REFINERY)
        found = os.stat(made)
        # The refinery's halves end a few bytes before the file does.
        check(found.st_blocks * 512 >= found.st_size - 4_096, "room", found.st_blocks * 512, "of", found.st_size)
        self.done += 1

    def format_beside_others(self):
        """`format` is refused beside a server, a desk and a `show` that still reads, and the device stands as it
        was."""
        with open(self.device, "rb") as file:
            before = file.read()
        format_again = ["format", self.device, PLANT]
        with Served(self.program, self.device) as server:
            check(server.serves, "the server that format is tried beside")
            self.refused(format_again, b"fault io\n")
        with Desk(self.program, self.device) as desk:
            check(desk.ask(b"0 1 STATE 0\n") == b"0 1 STATE 0 NORM 0 - -\n", "the desk that format is tried beside")
            self.refused(format_again, b"fault io\n")
        fault = Fault(self.library, "pread", 1, "held")
        with subprocess.Popen(
            [self.program, "show", self.device], stdout=subprocess.DEVNULL, env={**os.environ, **fault.loaded}
        ) as reader:
            try:
                until(fault.was_met, "show reads nothing")
                self.refused(format_again, b"fault io\n")
            finally:
                fault.forget()
        check(reader.returncode == 0, "the show that format is tried beside", reader.returncode)
        with open(self.device, "rb") as file:
            check(file.read() == before, "format beside others", "the device")

    def readers(self):
        """A server starts while what `show` and `export` print waits for its reader."""
        device = os.path.join(self.folder, "refinery")
        self.format(device, self.large_table())
        for word in ("show", "export"):
            with subprocess.Popen([self.program, word, device], stdout=subprocess.PIPE) as reader:
                reader.stdout.read(1)
                with Served(self.program, device) as server:
                    check(server.serves, "a server beside", word, "that waits for its reader")
                reader.stdout.read()
            self.done += 1

    def large_table(self):
        """A table of 4,000 alarms, so that what is shown of it doesn't fit into a pipe."""
        path = os.path.join(self.folder, "large.toml")
        rows = "".join(
            f'[[alarm]]\nkind = "high"\nsetpoint = 1\npriority = 1\narea = 0\ntag = "T-{number}"\n'
            for number in range(4_000)
        )
        with open(path, "w", encoding="ascii") as file:
            file.write("size = 8000000\nareas = 1\n" + rows)
        return path

    def other_addresses(self):
        """The ports are at 127.0.0.1 and at no other address of the machine."""
        with Served(self.program, self.device) as server:
            for address in ["127.0.0.2", *own_addresses()]:
                for slot in range(SLOTS):
                    with socket.socket() as client:
                        client.settimeout(2)
                        check(client.connect_ex((address, server.port + slot)) != 0, "port", slot, "at", address)
                self.done += 1

    def full_disk(self):
        """`format` on a disk without room: the fault alone, the file at its new size, and whatever old bytes fit
        stay."""
        place = os.path.join(self.folder, "small")
        os.mkdir(place)
        script = 'mount -t tmpfs -o size=2m none "$1" && exec python3 "$2" --on-a-full-disk "$3" "$1"'
        run = subprocess.run(
            ["unshare", "-m", "sh", "-c", script, "", place, os.path.abspath(__file__), self.program],
            capture_output=True,
            timeout=120,
        )
        if b"unshare" in run.stderr or b"mount" in run.stderr:
            print("surroundings.py: no file system could be mounted, so no full disk was tried")
            return
        check(run.returncode == 0, "full disk", run.stderr.decode())
        self.done += 3


def on_a_full_disk(program, folder):
    """In a file system of 2 MB: the refinery's table wants 16."""
    device = os.path.join(folder, "device")
    refused = ["format", device, REFINERY]
    size = 16_777_216
    run = run_words(program, refused)
    check((run.returncode, run.stdout, run.stderr) == (3, b"", b"fault io\n"), "format without room", run)
    check(os.path.getsize(device) == size, "its size", os.path.getsize(device))
    check(run_words(program, ["show", device]).stderr == b"fault unformatted\n", "it is no device")
    os.remove(device)
    check(run_words(program, ["format", device, PLANT]).returncode == 0, "format")
    check(run_words(program, ["desk", device], lines=b"17 1 CLOCK 1000\n").stdout == b"17 1 OK 1\n", "desk")
    shown = run_words(program, ["show", device]).stdout
    check(run_words(program, refused).stderr == b"fault io\n", "format over an old device")
    check(
        os.path.getsize(device) == size and run_words(program, ["show", device]).stdout == shown,
        "a shorter old device opens as it was",
    )


def main(argv):
    if argv[1:2] == ["--on-a-full-disk"]:
        on_a_full_disk(*argv[2:])
        return
    program, step, folder = begin("surroundings.py", argv, 1, 3)
    began = time.monotonic()
    around = Surroundings(program, folder)
    around.requests_of_http(step)
    around.urgent(60 // step)
    around.hanging_sync()
    around.descriptors(step)
    around.sizes()
    around.modes()
    around.room()
    around.format_beside_others()
    around.readers()
    around.other_addresses()
    around.full_disk()
    around.browser()
    around.rebound()
    finish(
        "surroundings.py",
        folder,
        f"{around.done} trials around the process, none wrong, {time.monotonic() - began:.0f} s",
    )


if __name__ == "__main__":
    try:
        main(sys.argv)
    except Wrong as wrong:
        sys.exit(f"surroundings.py: {wrong}")
