"""What a device's file shows, as the metrics that `alm_check --metrics` prints: how full the journal is, the epoch, and
whether bytes are damaged. Each sample names the plant by its file, since files of several plants are collected
together."""
import contextlib
import os
from typing import Iterator

from .device_file import DeviceFile
from .judging import Judged, Reading, read_device
from .metric_lines import label, metric


def page(path: str) -> str:
    """The text of the metrics. `NoDevice` says that the file is no device, or is being formatted."""
    reading, plant = read_device(path), label("plant", os.path.splitext(os.path.basename(path))[0])
    lines = [*damage(reading, plant)]
    if reading.judged:
        with contextlib.closing(DeviceFile(path)) as device:
            lines += journal(reading.judged, device.segment, f"{{{plant}}}")
    return "".join(f"{line}\n" for line in lines)


def damage(reading: Reading, plant: str) -> Iterator[str]:
    """1 for each place that is damaged, else 0."""
    samples: dict[str, float] = {f'{{{plant},half="{wrong.half}",at="{wrong.at}"}}': 1 for wrong in reading.wrong()}
    text = "Whether bytes of the device are damaged, and where."
    yield from metric("alarms_device_damaged", "gauge", text, samples or {f"{{{plant}}}": 0})


def journal(judged: Judged, segment: int, labels: str) -> Iterator[str]:
    """The journal of the half that stands, up to its first damage, in a segment of so many bytes."""
    yield from metric("alarms_journal_bytes", "gauge", "Used bytes of the journal.", {labels: judged.end})
    yield from metric("alarms_journal_size_bytes", "gauge", "Bytes of the journal.", {labels: segment})
    text = "Epoch of the device: checkpoints and the formatting."
    yield from metric("alarms_epoch", "gauge", text, {labels: judged.head.epoch})
