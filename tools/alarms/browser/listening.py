"""Where browsers, a proxy or another part connect: a port of loopback, or a Unix socket."""
import os
import socket
from pathlib import Path
from typing import Optional

from ..connecting import HOST
from ..ending import Fault

MODE = 0o660


class Ended(Fault):
    """It can't go on; in one line."""


def open_port(port: int) -> socket.socket:
    """A listening port of loopback."""
    listening = socket.socket()
    listening.setsockopt(socket.SOL_SOCKET, socket.SO_REUSEADDR, 1)
    try:
        listening.bind((HOST, port))
    except OSError as error:
        listening.close()
        raise Ended(f"port {port}: {error.strerror}") from None
    return listening


def open_socket(path: str, group: Optional[int]) -> socket.socket:
    """A listening Unix socket, its owner's and its group's alone. One that nobody listens at any more is replaced."""
    listening = socket.socket(socket.AF_UNIX)
    mask = os.umask(0o777 ^ MODE)
    try:
        if is_left(path):
            os.unlink(path)
        listening.bind(path)
        if group is not None:
            os.chown(path, -1, group)
    except OSError as error:
        listening.close()
        raise Ended(f"{path}: {error.strerror or error}") from None
    finally:
        os.umask(mask)
    return listening


def is_left(path: str) -> bool:
    """Whether a socket stands there whose process has ended."""
    with socket.socket(socket.AF_UNIX) as one:
        try:
            one.connect(path)
        except ConnectionRefusedError:
            return Path(path).is_socket()
        except OSError:
            return False
    return False
