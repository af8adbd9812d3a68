"""A Modbus TCP device of the tests' own, written from the protocol's description: registers and bits that a test
sets.
"""
import socket
import struct
import threading
from typing import Optional

READS_BITS, READS_REGISTERS = (1, 2), (3, 4)
ILLEGAL_FUNCTION, ILLEGAL_ADDRESS = 1, 2


class Device:
    """Registers 0 to `count` - 1, the same ones for each table; a bit is the lowest of its register. `begin` and `kill`
    as a device is switched.
    """

    def __init__(self, count: int, port: int = 0):
        self.words = [0] * count
        self.port = port
        self.listener: Optional[socket.socket] = None
        self.streams: list[socket.socket] = []
        self.begin()

    def begin(self) -> None:
        self.listener = socket.create_server(("127.0.0.1", self.port))
        self.port = self.listener.getsockname()[1]
        threading.Thread(target=self.accept, args=(self.listener,), daemon=True).start()

    def kill(self) -> None:
        """Ends it, with all its connections."""
        listener, self.listener = self.listener, None
        if listener:
            listener.shutdown(socket.SHUT_RDWR)
            listener.close()
        for stream in self.streams:
            try:
                stream.setsockopt(socket.SOL_SOCKET, socket.SO_LINGER, struct.pack("ii", 1, 0))
                stream.shutdown(socket.SHUT_RDWR)
            except OSError:
                pass
            stream.close()
        self.streams = []

    def accept(self, listener: socket.socket) -> None:
        while True:
            try:
                one, _ = listener.accept()
            except OSError:
                return
            self.streams.append(one)
            threading.Thread(target=self.answer, args=(one,), daemon=True).start()

    def answer(self, one: socket.socket) -> None:
        """Answers each request: its head is the transaction, 0, how many bytes follow, and the unit."""
        try:
            with one.makefile("rb") as stream:
                while len(head := stream.read(7)) == 7:
                    transaction, _, length, unit = struct.unpack(">HHHB", head)
                    reply = self.reply(stream.read(length - 1))
                    one.sendall(struct.pack(">HHHB", transaction, 0, len(reply) + 1, unit) + reply)
        except (OSError, ValueError):
            pass

    def reply(self, request: bytes) -> bytes:
        function, address, count = struct.unpack(">BHH", request[:5])
        if function not in READS_BITS + READS_REGISTERS:
            return bytes([function | 0x80, ILLEGAL_FUNCTION])
        if address + count > len(self.words):
            return bytes([function | 0x80, ILLEGAL_ADDRESS])
        words = self.words[address : address + count]
        if function in READS_REGISTERS:
            body = struct.pack(f">{count}H", *words)
        else:
            body = sum((word & 1) << at for at, word in enumerate(words)).to_bytes((count + 7) // 8, "little")
        return bytes([function, len(body)]) + body
