"""Topics of a broker as a source of readings, by paho-mqtt: MQTT 5 or 3.1.1 with quality of service 1 and a session
that the broker keeps.

A broker drops what it can't keep for a client, and says nothing of it to the client. So each topic is subscribed by
itself, a few at a time, and asked for once more within ten seconds: the broker answers with its retained value. A
retained value, and what the broker kept while this client was away, is a value and no sign that its source lives.

It runs in a process of its own (feed_process.py), or in several (feed_parts.py), since the library takes most of a
processor at 10,000 messages a second.
"""
import random
import select
import ssl
import sys
import time
from typing import Any, Callable, Optional

from .ending import Fault

try:
    import paho.mqtt.client as paho
    from paho.mqtt.packettypes import PacketTypes
    from paho.mqtt.properties import Properties
except ImportError:
    raise Fault(f"MQTT needs paho-mqtt, Debian's python3-paho-mqtt, which {sys.executable} hasn't") from None

from .feed_lines import say
from .feed_reading import Reading, of_payload
from .mqtt_settings import Mqtt
from .value_map import ValueMap

# Seconds in which all topics are asked for once more, and topics that are asked for at once: fewer than a broker keeps
# under way.
AGAIN, GROUP = 8.0, {5: 100, 3: 20}
# Seconds after a connection in which what comes may be what the broker kept, for which it keeps it, and in which
# the values of the beginning are gathered.
KEPT, SESSION, SETTLING, LONGEST_SETTLING = 2.0, 60, 0.2, 5.0
# Seconds for which the broker sends what it kept before a topic is asked for: else its queue has no room for retained
# values.
DRAIN = 0.5
# Seconds without a word after which the broker is asked whether it is there, and between two tries to connect: at least
# and at most.
KEEPALIVE, PAUSES = 5, (0.3, 2.0)
# Messages under way that this client takes at once, and seconds in which readings are gathered, and for which it waits
# without any.
RECEIVE_MAXIMUM, GATHERING, IDLE = 65_535, 0.002, 0.05


class Groups:
    """The topics in groups, each asked for in its turn."""

    def __init__(self, topics: list[str], size: int):
        self.groups = [topics[first : first + size] for first in range(0, len(topics), size)]
        self.every = AGAIN / max(1, len(self.groups))
        self.restart()

    def restart(self) -> None:
        """From the first group on, each as soon as the one before is answered."""
        self.next, self.first_round, self.waits_for, self.due = 0, True, None, 0.0

    waits_for: Optional[int]

    def answered(self, number: int) -> None:
        if number == self.waits_for:
            self.waits_for = None

    def take(self) -> Optional[list[str]]:
        """The group that is due; none while the one before isn't answered."""
        now = time.monotonic()
        if not self.groups or self.waits_for is not None or now < self.due:
            return None
        group = self.groups[self.next]
        self.next = (self.next + 1) % len(self.groups)
        self.first_round = self.first_round and self.next != 0
        self.due = now if self.first_round else max(now, self.due) + self.every if self.due else now + self.every
        return group


class MqttSource:
    """A broker's messages of some of the map's topics, on their way to `put`."""

    def __init__(self, settings: Mqtt, values: ValueMap, topics: list[str], put: Callable[[list[Reading]], None]):
        self.settings, self.values, self.put = settings, values, put
        self.groups = Groups(topics, GROUP[settings.version])
        self.gathered: list[Reading] = []
        self.first: dict[str, Reading] = {}
        self.kept_until = self.settled_at = self.settle_by = self.put_at = 0.0
        self.came, self.said = 0, ""
        self.client = self.new_client()

    def new_client(self) -> paho.Client:
        """A client of the broker; `OSError` where a certificate can't be read."""
        settings = self.settings
        options: dict[str, Any] = {"client_id": settings.client, "protocol": paho.MQTTv5}
        if settings.version != 5:
            options |= {"clean_session": False, "protocol": paho.MQTTv311}
        if hasattr(paho, "CallbackAPIVersion"):  # from release 2 on
            options["callback_api_version"] = paho.CallbackAPIVersion.VERSION1
        client = paho.Client(**options)
        if settings.user is not None:
            client.username_pw_set(settings.user, settings.password)
        if settings.tls:
            client.tls_set(settings.ca, settings.cert, settings.key, tls_version=ssl.PROTOCOL_TLS_CLIENT)
        client.on_connect, client.on_message, client.on_subscribe = self.on_connect, self.on_message, self.on_subscribe
        return client

    def run(self) -> None:
        """Goes on without an end."""
        while True:
            self.put([])  # which ends this process where the feed has ended
            self.connection()
            time.sleep(random.uniform(*PAUSES))

    def connection(self) -> None:
        """One connection, to its end."""
        try:
            self.connect()
            while (code := self.turn()) == paho.MQTT_ERR_SUCCESS:
                self.tick()
            self.tell(paho.error_string(code))
        except (OSError, ValueError) as error:
            self.tell(getattr(error, "strerror", None) or str(error))
        self.settle()

    def turn(self) -> int:
        """Waits for what comes, and takes all of it: the library's own loop asks the system before each message."""
        client, stream = self.client, self.client.socket()
        if stream is None:
            return paho.MQTT_ERR_NO_CONN
        readable, writable, _ = select.select(
            [stream], [stream] if client.want_write() else [], [], GATHERING if self.gathered else IDLE
        )
        code, before, until = paho.MQTT_ERR_SUCCESS, -1, time.monotonic() + IDLE
        while readable and code == paho.MQTT_ERR_SUCCESS and before != self.came and time.monotonic() < until:
            before = self.came
            code = client.loop_read()
        if writable and code == paho.MQTT_ERR_SUCCESS:
            code = client.loop_write()
        return code or client.loop_misc()

    def connect(self) -> None:
        settings = self.settings
        if settings.version == 5:
            properties = Properties(PacketTypes.CONNECT)
            properties.ReceiveMaximum, properties.SessionExpiryInterval = RECEIVE_MAXIMUM, SESSION
            self.client.connect(settings.host, settings.port, KEEPALIVE, clean_start=False, properties=properties)
        else:
            self.client.connect(settings.host, settings.port, KEEPALIVE)

    def tell(self, why: str) -> None:
        """Says why there is no broker, once."""
        if why != self.said:
            say(f"broker {self.settings}: {why} - trying again")
        self.said = why

    def on_connect(self, _client: paho.Client, _data: Any, flags: dict[str, int], code: Any, *_: Any) -> None:
        number = getattr(code, "value", code)
        if number != 0:
            raise ValueError(
                f"refuses the connection: {code if self.settings.version == 5 else paho.connack_string(number)}"
            )
        if self.said:
            say(f"broker {self.settings}: connected again")
        self.said = ""
        now = time.monotonic()
        self.kept_until = now + KEPT if flags.get("session present") else 0.0
        self.settled_at, self.settle_by = now + SETTLING, now + LONGEST_SETTLING
        self.groups.restart()
        if flags.get("session present"):
            self.groups.due = now + DRAIN

    def on_subscribe(self, _client: paho.Client, _data: Any, number: int, *_: Any) -> None:
        self.came += 1
        self.groups.answered(number)
        self.settled_at = time.monotonic() + SETTLING

    def on_message(self, _client: paho.Client, _data: Any, message: paho.MQTTMessage) -> None:
        self.came += 1
        now = time.monotonic()
        reading = of_payload(
            message.topic,
            message.payload.decode("utf-8", "replace"),
            now,
            not message.retain and now >= self.kept_until,
        )
        if self.settle_by:
            self.gather_first(reading)
            self.settled_at = now + SETTLING if message.retain else self.settled_at
            return
        self.gathered.append(reading)

    def gather_first(self, reading: Reading) -> None:
        """Keeps the last reading of each name of the beginning; a retained one is no later word than the same one that
        was live.
        """
        before = self.first.get(reading.name)
        if before is None or not before.is_live or before.text != reading.text:
            self.first[reading.name] = reading

    def tick(self) -> None:
        """Asks for what is due, and hands on the values of the beginning once they are together."""
        if self.client.is_connected():
            group = self.groups.take()
            if group:
                quality: Any = 1 if self.settings.version == 3 else paho.SubscribeOptions(qos=1)
                _, self.groups.waits_for = self.client.subscribe([(topic, quality) for topic in group])
        now = time.monotonic()
        is_answered = not self.groups.first_round and self.groups.waits_for is None
        if self.settle_by and (now >= self.settle_by or (now >= self.settled_at and is_answered)):
            self.settle()
        if now >= self.put_at:
            self.put_at = now + GATHERING
            gathered, self.gathered = self.gathered, []
            self.put(gathered)

    def settle(self) -> None:
        """Hands on what came at the beginning, suppressions first: what the broker kept or has retained of one may be
        behind its alarm's value.
        """
        self.settle_by = 0.0
        first, self.first = self.first, {}
        self.gathered += sorted(first.values(), key=lambda one: not self.is_design(one.name))

    def is_design(self, name: str) -> bool:
        return any(row.is_design for row in self.values.rows.get(name, ()))
