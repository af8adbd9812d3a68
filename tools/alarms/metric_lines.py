"""Metrics in the text format that Prometheus reads."""
from typing import Iterator

# How a name stands in a label.
ESCAPED = str.maketrans({"\\": r"\\", '"': r"\"", "\n": r"\n"})


def label(name: str, value: str) -> str:
    """A label and its value."""
    return f'{name}="{value.translate(ESCAPED)}"'


def metric(name: str, kind: str, page: str, samples: dict[str, float]) -> Iterator[str]:
    """The lines of a metric: its samples by their labels."""
    yield f"# HELP {name} {page}"
    yield f"# TYPE {name} {kind}"
    for labels, value in samples.items():
        yield f"{name}{labels} {value:g}" if isinstance(value, float) else f"{name}{labels} {value}"
