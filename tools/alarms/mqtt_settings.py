"""Which broker a feed subscribes at, and how."""
import argparse
import hashlib
from dataclasses import dataclass, replace
from typing import Optional
from urllib.parse import unquote, urlsplit

PORTS = {"mqtt": 1883, "mqtts": 8883}


@dataclass(frozen=True)
class Mqtt:
    """A broker and what it is shown."""

    host: str
    port: int
    tls: bool
    user: Optional[str] = None
    password: Optional[str] = None
    ca: Optional[str] = None
    cert: Optional[str] = None
    key: Optional[str] = None
    client: str = ""
    version: int = 5

    def __str__(self) -> str:
        return f"{self.host}:{self.port}"

    def completed(self, chosen: argparse.Namespace, place: str) -> "Mqtt":
        """With the other options. The client's name is one by the place where it isn't given; `OSError` where a
        password can't be read.
        """
        name = chosen.mqtt_id or f"alm_feed-{hashlib.sha256(place.encode()).hexdigest()[:12]}"
        password = read_password(chosen.mqtt_password) if chosen.mqtt_password else None
        return replace(
            self,
            password=password,
            ca=chosen.mqtt_ca,
            cert=chosen.mqtt_cert,
            key=chosen.mqtt_key,
            client=name,
            version=int(chosen.mqtt_version),
        )


def read_url(text: str) -> Mqtt:
    """A broker as mqtt://HOST:1883 or mqtts://USER@HOST:8883. A password isn't taken: each user of the machine would
    see it.
    """
    try:
        parts = urlsplit(text)
        port = parts.port
    except ValueError:
        raise argparse.ArgumentTypeError(f"{text} isn't mqtt://HOST:PORT") from None
    if parts.scheme not in PORTS or not parts.hostname or parts.path not in ("", "/") or parts.query or parts.fragment:
        raise argparse.ArgumentTypeError(f"{text} isn't mqtt://HOST:PORT or mqtts://USER@HOST:PORT")
    if parts.password is not None:
        raise argparse.ArgumentTypeError("a password comes from a file: --mqtt-password FILE")
    return Mqtt(
        parts.hostname,
        port or PORTS[parts.scheme],
        parts.scheme == "mqtts",
        unquote(parts.username) if parts.username else None,
    )


def read_password(path: str) -> str:
    """The first line of a file."""
    with open(path, encoding="utf-8") as file:
        return file.readline().rstrip("\r\n")
