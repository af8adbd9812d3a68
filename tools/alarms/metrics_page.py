"""A page of metrics in the text format that Prometheus reads, on loopback alone."""
import http.server
import threading
from typing import Callable, Iterable, Iterator

from .connecting import HOST
from .metric_lines import label

# Seconds after which a client of the page is left.
SILENCE = 10
# Name, kind, page and value of a metric; of several plants the value of each, by its name.
Metric = tuple[str, str, str, float | dict[str, float]]


def page_of(metrics: Iterable[Metric]) -> str:
    """The text of metrics."""
    return "".join(f"{line}\n" for metric in metrics for line in lines_of(*metric))


def lines_of(name: str, kind: str, page: str, value: float | dict[str, float]) -> Iterator[str]:
    """The lines of a metric: what it is, and its samples."""
    yield f"# HELP {name} {page}"
    yield f"# TYPE {name} {kind}"
    if not isinstance(value, dict):
        yield f"{name} {number(value)}"
        return
    for plant, sample in value.items():
        yield f'{name}{{{label("plant", plant)}}} {number(sample)}'


def number(value: float) -> str:
    return f"{value:.3f}" if isinstance(value, float) else str(value)


class Page(http.server.ThreadingHTTPServer):
    """Answers /metrics by what is told at that moment, each client in a thread."""

    daemon_threads = True

    def __init__(self, port: int, told: Callable[[], Iterable[Metric]]):
        super().__init__((HOST, port), Asked)
        self.told = told


class Asked(http.server.BaseHTTPRequestHandler):
    """A client of the page."""

    server: Page
    timeout = SILENCE

    def do_GET(self) -> None:
        if self.path != "/metrics":
            self.send_error(404)
            return
        body = page_of(self.server.told()).encode()
        self.send_response(200)
        self.send_header("Content-Type", "text/plain; version=0.0.4; charset=utf-8")
        self.send_header("Content-Length", str(len(body)))
        self.end_headers()
        self.wfile.write(body)

    def log_message(self, *_: object) -> None:
        pass


def show_page(port: int, told: Callable[[], Iterable[Metric]], say: Callable[..., None]) -> None:
    """Shows a page at a port, 0 for any that is free, and says where. `OSError` says that the port is taken."""
    page = Page(port, told)
    say(f"metrics at http://{HOST}:{page.server_port}/metrics")
    threading.Thread(target=page.serve_forever, daemon=True).start()
