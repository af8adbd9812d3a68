#!/usr/bin/env python3
"""A level transmitter to try with: a Modbus TCP device that has the level which is typed.

    level_device.py [ADDRESS]

It answers at port 502 of an address of this machine, 127.0.0.1 where none is given; for that port it is run by root.
Each line of standard input is the level from then on, in %. It stands in the holding registers 40101 and 40102 as
float32, big-endian; the others up to 40200 are 0. Its end, by Ctrl-C, is to its clients as a cable that is pulled.
"""
import argparse
import os
import socketserver
import struct
import sys
import threading

HOST, PORT = "127.0.0.1", 502
# The one function that it knows, which reads holding registers, and why another one is refused, or other registers.
READ, ILLEGAL_FUNCTION, ILLEGAL_ADDRESS = 3, 1, 2
# The address of register 40101, and how many registers there are, of two bytes each.
LEVEL, REGISTERS = 100, 200
registers = bytearray(2 * REGISTERS)


def answer(request: bytes) -> bytes:
    """The answer to a request: a function, an address from 0 on, and how many registers from there."""
    function, address, count = struct.unpack(">BHH", request[:5])
    if function != READ:
        return bytes([function | 0x80, ILLEGAL_FUNCTION])
    if address + count > REGISTERS:
        return bytes([function | 0x80, ILLEGAL_ADDRESS])
    found = registers[2 * address : 2 * (address + count)]
    return bytes([function, len(found)]) + found


class Asked(socketserver.StreamRequestHandler):
    """A client. Before a request and an answer stand its number, 0, how many bytes follow, and the unit."""

    def handle(self) -> None:
        try:
            while len(head := self.rfile.read(7)) == 7:
                number, _, length, unit = struct.unpack(">HHHB", head)
                reply = answer(self.rfile.read(length - 1))
                self.wfile.write(struct.pack(">HHHB", number, 0, len(reply) + 1, unit) + reply)
        except (OSError, ValueError, struct.error):  # the client has gone, or speaks something else
            pass


class Device(socketserver.ThreadingTCPServer):
    """Answers each client in a thread."""

    allow_reuse_address = daemon_threads = True


def take_levels() -> None:
    """Puts each level into the registers, until standard input ends."""
    for line in sys.stdin:
        try:
            registers[2 * LEVEL : 2 * LEVEL + 4] = struct.pack(">f", float(line))
        except (ValueError, OverflowError):
            print(f"level_device: {line.strip()!r} is no level", file=sys.stderr)
    os._exit(0)


def main() -> None:
    words = argparse.ArgumentParser(description=__doc__, formatter_class=argparse.RawDescriptionHelpFormatter)
    words.add_argument("host", metavar="ADDRESS", nargs="?", default=HOST, help="an address of this machine")
    host = words.parse_args().host
    try:
        with Device((host, PORT), Asked) as device:
            threading.Thread(target=take_levels, daemon=True).start()
            device.serve_forever()
    except OSError as error:
        sys.exit(f"level_device: {host} port {PORT}: {error.strerror or error}")
    except KeyboardInterrupt:
        sys.exit(0)


if __name__ == "__main__":
    main()
