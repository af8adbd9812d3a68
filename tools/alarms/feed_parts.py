"""The topics of a map in parts, for several processes: the library of MQTT has one processor's time in each."""
from dataclasses import replace

from .mqtt_settings import Mqtt
from .value_map import ValueMap


def groups_of(values: ValueMap) -> list[list[str]]:
    """The topics that belong together: those of one alarm, so that its suppression goes before its value."""
    by_tag: dict[str, list[str]] = {}
    for name in values.topics():
        found = {id(group): group for row in values.rows[name] if (group := by_tag.get(row.tag))}
        together = [one for group in found.values() for one in group] + [name]
        by_tag.update((row.tag, together) for one in together for row in values.rows[one])
    return list({id(group): group for group in by_tag.values()}.values())


def parts_of(values: ValueMap, count: int) -> list[list[str]]:
    """The topics in so many parts at most, about as long as each other."""
    parts: list[list[str]] = [[] for _ in range(count)]
    for group in groups_of(values):
        min(parts, key=len).extend(group)
    return [part for part in parts if part] or [[]]


def settings_of(settings: Mqtt, number: int) -> Mqtt:
    """The settings of a part: its broker knows each by a name of its own."""
    return replace(settings, client=f"{settings.client}-{number}") if number else settings
