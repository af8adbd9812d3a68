"""The words that the page of the alarm list uses, as its sources have them: of its HTML, of `t("..")` and `w("..")` in
its script, and of what its server says to operators."""
import ast
import re
from pathlib import Path
from typing import Iterator

from alarms.browser import language
from alarms.browser.language import key_of
from lib.places import TOOLS

# A comment; a text of the script, in which a value may stand; and a text that somebody could read: several words, a
# word beside a value, or one with a capital.
COMMENT = re.compile(r"/\*.*?\*/|(?<!:)//[^\n]*", re.DOTALL)
VALUE = re.compile(r"\$\{[^{}`]*(?:\{[^{}`]*\}[^{}`]*)*\}")
TEXT = re.compile(r'"((?:[^"\\\n]|\\.)*)"|`((?:[^`\\]|\\.)*)`')
READ = re.compile(r"^[A-Z][a-z]|[A-Za-z]{2,}.* | .*[A-Za-z]{2,}")
# What reads so and is none: the protocol's words, keys, parts of the page, and what browsers and requests have.
UNREAD = {"OOS ON", "OOS OFF", "FLOOD END", "ArrowDown", "ArrowUp", "ArrowLeft", "ArrowRight", "PageDown", "PageUp"}
UNREAD |= {"Home", "End", "Enter", "value number", "limit number", "left number", "c-number number", "c-value number"}
UNREAD |= {"c-limit number", "c-left number", "#columns .c-tag", "minmax(0, fr)", "(prefers-color-scheme: dark)"}
UNREAD |= {"label:not([hidden]) :is(select, input)", "#list:hover, #newcomers:hover", "input, select, textarea"}
UNREAD |= {"event: ", "data: ", "Content-Type", "TimeoutError", "BroadcastChannel", "no reply"}
BROWSER = TOOLS / "alarms" / "browser"
PAGE = BROWSER / "page"
# A text that is told by t(..), or is noted for that by w(..).
TOLD = re.compile(r'\b[tw]\(\s*"((?:[^"\\]|\\.)*)"')
# Modules whose constants are told to operators, and what isn't.
SAYS = {"orders.py": ("TAKE", "LEAVE"), "positions.py": ("TAKE", "LEAVE"), "web.py": ("FORM", "TOLD"), "watch.py": ()}


def script_words() -> Iterator[str]:
    for path in sorted(PAGE.glob("*.js")):
        yield from (found.replace('\\"', '"') for found in TOLD.findall(path.read_text(encoding="utf-8")))


def untold() -> Iterator[str]:
    """What the script says that an operator could read, and that is told by no file: a line each."""
    for path in sorted(PAGE.glob("*.js")):
        script = TOLD.sub("", COMMENT.sub("", path.read_text(encoding="utf-8")))
        for plain, with_values in TEXT.findall(script):
            text = VALUE.sub("", plain or with_values)
            if READ.search(text) and text not in UNREAD:
                yield f"{path.name}: {text!r}"


def page_words() -> Iterator[str]:
    for path in sorted(PAGE.glob("*.html")):
        yield from (text for text in language.texts_of(path.read_text(encoding="utf-8")) if len(text) > 1)


def constants(path: Path, passed_over: tuple[str, ...]) -> Iterator[str]:
    """The texts that a module assigns to names of its own, and what it gives as reasons."""
    tree = ast.parse(path.read_text(encoding="utf-8"))
    for node in tree.body:
        if isinstance(node, ast.Assign) and path.name in SAYS:
            names = [name.id for target in node.targets for name in ast.walk(target) if isinstance(name, ast.Name)]
            values = node.value.values if isinstance(node.value, ast.Dict) else [node.value]
            values = values[0].elts if isinstance(values[0], ast.Tuple) and len(names) > 1 else values
            if not set(names) & set(passed_over):
                yield from texts(values)
    for node in ast.walk(tree):
        if isinstance(node, ast.Call) and getattr(node.func, "id", "") in ("BadOrder", "NotAllowed"):
            yield from texts(node.args[:1])
        if isinstance(node, ast.Call) and getattr(node.func, "attr", "").startswith("HTTP"):
            yield from texts([word.value for word in node.keywords if word.arg == "text"])


def texts(values: list[ast.expr]) -> Iterator[str]:
    """The sentences among them."""
    for value in values:
        if isinstance(value, ast.Constant) and isinstance(value.value, str) and " " in value.value.strip():
            yield key_of(value.value)


def server_words() -> Iterator[str]:
    for path in sorted(BROWSER.glob("*.py")):
        yield from constants(path, SAYS.get(path.name, ()))


def used() -> list[str]:
    """Each word once, in the order of the alphabet."""
    return sorted({*script_words(), *page_words(), *server_words()}, key=lambda word: (word.lower(), word))
