"""A desk that is asked through a pipe, as a client at any slot."""
import subprocess
from typing import Optional
from .client import Client, Lost
from .known import known


class DeskProcess:
    """`alm_server desk`, over a device or over its own table in memory. Its slots share one stream."""

    def __init__(self, program: str, device: Optional[str] = None):
        pipe = subprocess.PIPE
        words = [program, "desk"] + ([device] if device else [])
        self.process = subprocess.Popen(words, stdin=pipe, stdout=pipe, encoding="ascii")

    def at(self, slot: int) -> "DeskClient":
        return DeskClient(self, slot)

    def end(self) -> int:
        """Ends the input; the program's status."""
        known(self.process.stdin).close()
        return self.process.wait()


class DeskClient(Client):
    """A slot of a desk."""

    def __init__(self, desk: DeskProcess, slot: int):
        super().__init__()
        self.desk, self.slot = desk, slot

    def send(self, text: str) -> None:
        lines = known(self.desk.process.stdin)
        lines.write("".join(f"{self.slot} {line}\n" for line in text.splitlines()))
        lines.flush()

    def receive(self) -> str:
        slot, _, reply = known(self.desk.process.stdout).readline().partition(" ")
        if slot != str(self.slot):
            raise Lost("the desk has ended")
        return reply

    def close(self) -> None:
        pass
