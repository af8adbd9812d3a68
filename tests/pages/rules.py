#!/usr/bin/env python3
"""Checks the rules of the Python, shell, C and JavaScript here, which CONTRIBUTING.md has.

    tests/pages/rules.py

A line has at most 120 columns, a function 60 lines, a file 400, one of JavaScript 300. Each module and class says what
it is, and so does each function above 20 lines. What is longer yet is listed below with its length, and may not grow.
Then these programs look, if they are installed (Debian: pyflakes3, mypy, black, shellcheck, node-typescript, eslint);
one that isn't is said: pyflakes, mypy over the tools, black for the layout, shellcheck, and over the page's JavaScript
TypeScript's compiler, by the types in its remarks, and eslint, by eslint.json.
"""
import ast
import os
import re
import shutil
import subprocess
import sys
from pathlib import Path
from typing import Iterator, Sequence

TOP = Path(__file__).resolve().parents[2]
COLUMNS, FUNCTION, FILE, SCRIPT, UNTOLD = 120, 60, 400, 300, 20
# The longest of what is longer yet: of a file its lines, of a function those of its name.
LINES: dict[str, int] = {"tests/lib/preload.c": 444, "tests/program/surroundings.py": 459}
FUNCTIONS: dict[str, int] = {
    "tests/tools/check_archive.py:changed_table": 65,
    "tests/tools/check_mirror.py:tool_shows": 65,
}
# Lines above 120 columns of files that have such yet.
WIDE: dict[str, int] = {
    "alm_server": 3,
    "bench/codec/plain.c": 1,
    "bench/codec/run.sh": 2,
    "bench/desk-device/run.sh": 2,
    "bench/rings/run.sh": 1,
    "bench/segment/plain.c": 1,
    "bench/serve/plain.c": 6,
    "bench/turns.sh": 1,
    "deploy/debian/postinst": 1,
    "deploy/debian/prerm": 1,
    "deploy/prometheus/alarms.rules.yml": 2,
    "deploy/standby/alarms_alone": 2,
    "deploy/systemd/alm_browser@.service": 1,
    "tests/all.sh": 3,
    "tests/gate.sh": 1,
    "tests/lib/preload.c": 11,
    "tests/machines/virtual/guest.c": 4,
    "tests/program/badfs.c": 4,
}
# What keeps its own layout until its next change.
LATER = (
    "tools/alarms/feed_lines.py",
    "tools/alarms/inbox.py",
    "tests/tools/check_feed.py",
    "tests/tools/check_mqtt.py",
    "tests/tools/values.py",
)
# Kinds of files besides Python whose lines are counted.
KINDS = (".sh", ".c", ".js", ".css", ".html", ".service", ".env", ".cfg", ".conf", ".res", ".nft", ".nginx", ".yml")
# The types of the page's JavaScript stand in its remarks (JSDoc).
TYPES = ["tsc", "--allowJs", "--checkJs", "--noEmit", "--strict", "--noUnusedLocals", "--target", "es2022"]
TYPES += ["--lib", "es2022,dom,dom.iterable", "--module", "es2022", "--moduleResolution", "node"]
LINT = ["eslint", "--no-eslintrc", "--config", "tests/pages/eslint.json", "--format", "unix"]
# Debian's eslint finds its parts there, whichever node runs it.
NODE = {**os.environ, "NODE_PATH": "/usr/share/nodejs"}
# black lays out the same by the same year's style.
BLACK = "23."


def own_files() -> list[Path]:
    """The files of the repository that aren't Rattle, links or pages."""
    said = subprocess.run(["git", "-C", TOP, "ls-files", "-z"], capture_output=True, check=True).stdout.decode()
    paths = [TOP / name for name in said.split("\0") if name and not name.startswith("crates/")]
    return [path for path in paths if path.is_file() and not path.is_symlink()]


def begins(path: Path) -> str:
    """The first line of a file without an ending, if it is text."""
    with open(path, "rb") as file:
        return file.readline(100).decode("ascii", "replace")


def name_of(path: Path) -> str:
    """A file's name from the top."""
    return str(path.relative_to(TOP))


def strings(tree: ast.Module) -> set[int]:
    """The lines of strings that span several lines and are no docstring: another language's, or printed."""
    told = {id(node.body[0].value) for node in ast.walk(tree) if has_docstring(node)}
    found: set[int] = set()
    for node in ast.walk(tree):
        if isinstance(node, (ast.Constant, ast.JoinedStr)) and id(node) not in told:
            last = node.end_lineno or node.lineno
            found |= set(range(node.lineno, last + 1)) if last > node.lineno else set()
    return found


def has_docstring(node: ast.AST) -> bool:
    kinds = (ast.Module, ast.ClassDef, ast.FunctionDef, ast.AsyncFunctionDef)
    return isinstance(node, kinds) and ast.get_docstring(node, clean=False) is not None


def wide(path: Path, passed_over: set[int]) -> Iterator[str]:
    """Says if a file has more lines above 120 columns than it may."""
    lines = path.read_text(encoding="utf-8").split("\n")
    found = [number for number, line in enumerate(lines, 1) if len(line) > COLUMNS and number not in passed_over]
    if len(found) > WIDE.get(name_of(path), 0):
        yield f"{name_of(path)}:{found[0]}: a line above {COLUMNS} columns, of {len(found)}"


def long(path: Path) -> Iterator[str]:
    """Says if a file has too many lines."""
    count, most = path.read_text(encoding="utf-8").count("\n"), SCRIPT if path.suffix == ".js" else FILE
    if count > LINES.get(name_of(path), most):
        yield f"{name_of(path)}: {count} lines, and not {LINES.get(name_of(path), most)}"


def shaped(path: Path) -> Iterator[str]:
    """What is wrong with the shape of a file of Python."""
    tree = ast.parse(path.read_text(encoding="utf-8"))
    yield from wide(path, strings(tree))
    yield from long(path)
    for node in [tree, *ast.walk(tree)]:
        if isinstance(node, (ast.FunctionDef, ast.AsyncFunctionDef)):
            yield from function(path, node)
        elif isinstance(node, (ast.Module, ast.ClassDef)) and not has_docstring(node):
            where = f"{name_of(path)}:{getattr(node, 'name', '')}"
            yield f"{where} doesn't say what it is"


def function(path: Path, node: ast.FunctionDef | ast.AsyncFunctionDef) -> Iterator[str]:
    """What is wrong with the shape of a function."""
    where, count = f"{name_of(path)}:{node.name}", (node.end_lineno or 0) - node.lineno + 1
    if count > FUNCTIONS.get(where, FUNCTION):
        yield f"{where} has {count} lines, and not {FUNCTIONS.get(where, FUNCTION)}"
    if count > UNTOLD and node.name not in ("__init__", "main") and not has_docstring(node):
        yield f"{where} has {count} lines, and doesn't say what it does"


def said_by(command: Sequence[str | Path], env: dict[str, str] | None = None) -> str:
    """What a program says; nothing if all is well."""
    run = subprocess.run(command, capture_output=True, text=True, check=False, cwd=TOP, timeout=600, env=env)
    return run.stdout + run.stderr if run.returncode else ""


class Programs:
    """The programs that look, and what they say."""

    def __init__(self, python: list[Path], shell: list[Path], page: list[Path]):
        self.python, self.shell, self.page = python, shell, page
        self.left_out: list[str] = []

    def look(self) -> Iterator[str]:
        """What any of them says."""
        for name in ("pyflakes3", "mypy", "black", "shellcheck", "tsc", "eslint"):
            if not shutil.which(name):
                self.left_out.append(f"no {name}")
            else:
                yield from (f"{name}: {line}" for line in getattr(self, name)().splitlines() if line)

    def pyflakes3(self) -> str:
        return said_by(["pyflakes3", *self.python])

    def mypy(self) -> str:
        checked = [path for path in self.python if name_of(path).startswith("tools/") and name_of(path) not in LATER]
        said = said_by(["mypy", "--config-file", "pyproject.toml", "tools/alarms", "deploy/debian/manual.py"])
        return "\n".join(line for line in said.splitlines() if any(line.startswith(name_of(one)) for one in checked))

    def black(self) -> str:
        version = subprocess.run(["black", "--version"], capture_output=True, text=True, check=False).stdout
        if f" {BLACK}" not in version:
            self.left_out.append(f"black isn't {BLACK}x")
            return ""
        laid_out = [path for path in self.python if name_of(path) not in LATER]
        said = said_by(["black", "--check", "--config", "pyproject.toml", *laid_out])
        return "\n".join(line for line in said.splitlines() if line.startswith(("would", "error")))

    def shellcheck(self) -> str:
        return said_by(["shellcheck", "--external-sources", "--severity=warning", "--format=gcc", *self.shell])

    def tsc(self) -> str:
        return said_by([*TYPES, *self.page])

    def eslint(self) -> str:
        return said_by([*LINT, *self.page], NODE)


def main() -> None:
    files = own_files()
    first = {path: begins(path) for path in files if not path.suffix}
    python = [path for path in files if path.suffix == ".py" or "python3" in first.get(path, "")]
    shell = [path for path in files if path.suffix == ".sh" or re.match(r"#!.*\b(ba)?sh$", first.get(path, "").strip())]
    others = sorted({*shell, *(path for path in files if path.suffix in KINDS)})
    wrong = [line for path in python if name_of(path) not in LATER for line in shaped(path)]
    wrong += [line for path in others for line in [*wide(path, set()), *long(path)]]
    programs = Programs(python, shell, [path for path in files if path.suffix == ".js"])
    wrong += programs.look()
    if wrong:
        sys.exit("\n".join(f"rules.py: {line}" for line in wrong))
    left_out = f"; left out: {', '.join(programs.left_out)}" if programs.left_out else ""
    print(f"rules.py: {len(python)} files of Python, {len(others)} others, none wrong{left_out}")


if __name__ == "__main__":
    main()
