"""What the alarm list in a browser tells Prometheus of itself."""
from typing import Callable, Iterator

from ..metrics_page import Metric
from .watch import Watch

# Name, kind and page of each metric, and its value of a plant.
METRICS: tuple[tuple[str, str, str, Callable[[Watch], int]], ...] = (
    ("connected", "gauge", "Whether the list has the plant's server.", lambda watch: int(not watch.trouble())),
    ("rows_compared_total", "counter", "Rows that were held against the server's.", lambda watch: watch.check.compared),
    ("rows_denied", "gauge", "Alarms whose drawn row isn't the server's.", lambda watch: len(watch.check.denied)),
    ("mixed_looks_total", "counter", "Looks that weren't all of one count.", lambda watch: watch.mixed_looks),
)


def list_metrics(watches: dict[str, Watch]) -> Iterator[Metric]:
    """The metrics of plants, by their names."""
    for name, kind, page, of in METRICS:
        yield f"alarms_list_{name}", kind, page, {plant: of(watch) for plant, watch in watches.items()}
