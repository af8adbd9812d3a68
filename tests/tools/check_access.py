"""Brokers that let not everybody in. tests/tools/field.py runs these checks."""
import os
import subprocess

from fed_plant import Plant, ended, published
from lib.tools import Yard, await_true

from check_mqtt import Broker
from lib.program import check


def certify(yard: Yard, name: str, *words: str) -> tuple[str, str]:
    """A certificate of 127.0.0.1 and its key. It is its own authority, but for the words that name another one."""
    own, key = yard.path(f"{name}.pem"), yard.path(f"{name}-key.pem")
    subprocess.run(
        "openssl req -x509 -newkey rsa:2048 -nodes -days 2 -subj /CN=127.0.0.1 -addext".split()
        + ["subjectAltName=IP:127.0.0.1", "-keyout", key, "-out", own, *words],
        check=True,
        capture_output=True,
    )
    return own, key


def guarded_broker(yard: Yard, more: str) -> tuple[Broker, str]:
    """A broker by TLS, and its certificate."""
    own, key = certify(yard, "broker")
    return Broker(yard, f"certfile {own}\nkeyfile {key}\n{more}"), own


def with_password(yard: Yard, _: int) -> str:
    """A broker with TLS and a password: the right ones bring values, wrong ones a line."""
    plant, passwords = Plant(yard, "a,TI-1,10\n"), yard.path("passwords")
    subprocess.run(["mosquitto_passwd", "-b", "-c", passwords, "feed", "a word"], check=True, capture_output=True)
    broker, pub = guarded_broker(yard, f"password_file {passwords}\nallow_anonymous false\n")
    url, word, wrong = (
        f"mqtts://feed@127.0.0.1:{broker.port}",
        yard.write("word", "a word\n"),
        yard.write("wrong", "another\n"),
    )
    published(broker, "a", "390", "-r", "-u", "feed", "-P", "a word", "--cafile", pub)
    refused(plant, "Not authorized", "--mqtt", url, "--mqtt-password", wrong, "--mqtt-ca", pub)
    refused(plant, "certificate verify failed", "--mqtt", url, "--mqtt-password", word)
    feed = plant.feed("--mqtt", url, "--mqtt-password", word, "--mqtt-ca", pub)
    plant.becomes("the value by TLS", True)
    ended(feed)
    broker.kill()
    plant.server.end()
    return "TLS and a password"


def with_certificate(yard: Yard, _: int) -> str:
    """A broker that asks for a certificate of its authority: one of these brings values, another one or none a line."""
    plant, (authority, key) = Plant(yard, "a,TI-1,10\n"), certify(yard, "authority")
    mine, my_key = certify(yard, "mine", "-CA", authority, "-CAkey", key)
    other, other_key = certify(yard, "other")
    broker, pub = guarded_broker(yard, f"cafile {authority}\nrequire_certificate true\nallow_anonymous true\n")
    words = ("--mqtt", f"mqtts://127.0.0.1:{broker.port}", "--mqtt-ca", pub)
    published(broker, "a", "390", "-r", "--cafile", pub, "--cert", mine, "--key", my_key)
    refused(plant, "broker 127.0.0.1", *words)
    refused(plant, "broker 127.0.0.1", *words, "--mqtt-cert", other, "--mqtt-key", other_key)
    feed = plant.feed(*words, "--mqtt-cert", mine, "--mqtt-key", my_key)
    plant.becomes("the value by a certificate", True)
    ended(feed)
    broker.kill()
    plant.server.end()
    return "a client's certificate"


def refused(plant: Plant, why: str, *words: str) -> None:
    """With these words the feed says why it isn't let in, and no value comes."""
    before = len(plant.said()) if os.path.exists(plant.yard.path("feed.log")) else 0
    feed = plant.feed(*words)
    await_true(why, lambda: why.lower() in plant.said()[before:].lower())
    ended(feed)
    check(not plant.holding()[0], "a value came, though the broker lets nobody in by", words)


CHECKS = {one.__name__: one for one in (with_password, with_certificate)}
