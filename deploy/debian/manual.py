"""Pages of the manual: of the program, by tables of docs/; of each tool, by the page that it prints with --help."""
import ast
import os
import re
import subprocess
import sys
import textwrap
from pathlib import Path
from typing import Iterator

HERE = Path(__file__).resolve().parent
TOP = HERE.parent.parent
VERSION = (TOP / "VERSION").read_text(encoding="ascii").strip()
# An argument in the list of them that a tool prints, and what is said of it from a column on or in the next lines.
ARGUMENT = re.compile(r"  (\S.*?)(?:\s{2,}(\S.*))?$")


class NoManual(Exception):
    """Why there is none."""


def rows(page: str, heading: str) -> list[list[str]]:
    """The rows of the first table below a heading of a page, without its head."""
    text = (TOP / "docs" / page).read_text(encoding="utf-8")
    found = re.search(rf"(?ms)^## {re.escape(heading)}\n.*?^\|[^\n]*\n\|[-| ]+\n(.*?)^(?!\|)", text)
    if not found:
        raise NoManual(f"docs/{page} has no table under {heading}")
    cells = (re.split(r"(?<!\\)\|", line.strip().strip("|")) for line in found[1].splitlines())
    return [[plain(cell, page) for cell in row] for row in cells]


def named(found: re.Match[str], own: str) -> str:
    """A link of a page as its text, and the page that it leads to if the text isn't its name."""
    page = os.path.basename(found[2].partition("#")[0]) or own
    return found[1] if found[1] in page else f"{found[1]} ({page})"


def plain(cell: str, page: str) -> str:
    """A cell of a page as text of a manual."""
    text = re.sub(r"\[([^\]]*)\]\(([^)]*)\)", lambda found: named(found, page), cell.strip())
    text = re.sub(r"`([^`]*)`|\*\*", lambda m: m[1] or "", text)
    return text.replace("\\", "\\e").replace("-", "\\-").replace("'", "\\(aq")


def manual(page: str, entries: list[tuple[str, str]]) -> str:
    """A page of the manual, its list in place of the line ENTRIES."""
    listed = "".join(f".TP\n.B {name}\n{text}\n" for name, text in entries)
    return (HERE / page).read_text(encoding="utf-8").replace("ENTRIES\n", listed).replace("VERSION", VERSION)


def escaped(text: str) -> str:
    """A text of a tool's page in a manual, where no line is a command."""
    text = text.replace("\\", "\\e").replace("-", "\\-").replace("'", "\\(aq").replace("`", "\\(ga")
    return re.sub(r"(?m)^\.", r"\\&.", text)


def blocks(page: str) -> Iterator[str]:
    """The paragraphs of a tool's page; those that are indented keep their lines."""
    for part in re.split(r"\n\s*\n", page.strip("\n")):
        is_kept = part.startswith("    ")
        yield f".PP\n.nf\n.RS\n{escaped(textwrap.dedent(part))}\n.RE\n.fi\n" if is_kept else f".PP\n{escaped(part)}\n"


def arguments(said: str) -> Iterator[str]:
    """The arguments that a tool lists with --help."""
    lists = re.split(r"(?m)^(?:positional arguments|options):\n", said)[1:]
    for line in "\n".join(lists).splitlines():
        if found := ARGUMENT.match(line) if not line.startswith("    ") else None:
            yield f".TP\n.B {escaped(found[1])}\n" + (f"{escaped(found[2])}\n" if found[2] else "")
        elif line.strip():
            yield f"{escaped(line.strip())}\n"


def of_tool(command: str) -> str:
    """The page of a tool."""
    module = TOP / "tools" / "alarms" / command.removeprefix("alm_")
    source = module / "__main__.py" if module.is_dir() else module.with_suffix(".py")
    page = ast.get_docstring(ast.parse(source.read_text(encoding="utf-8"))) or ""
    name, _, rest = page.partition("\n\n")
    uses, _, more = rest.partition("\n\n")
    words = [sys.executable, str(TOP / "tools" / command), "--help"]
    run = subprocess.run(words, capture_output=True, text=True, check=False, env={**os.environ, "COLUMNS": "100"})
    if run.returncode:
        raise NoManual(f"{command} --help: {run.stderr.strip()}")
    name = " ".join(name.split()).rstrip(".")
    return (
        f'.TH {command.upper()} 1 "" "alarms {VERSION}" "User commands"\n.SH NAME\n{command} \\-'
        f' {escaped(name[:1].lower() + name[1:])}\n.SH SYNOPSIS\n{"".join(blocks(uses))}.SH'
        f' DESCRIPTION\n{"".join(blocks(more))}.SH ARGUMENTS\n{"".join(arguments(run.stdout))}.SH SEE ALSO\n.BR'
        " alm_server (8),\n.I /usr/share/doc/alarms/docs/START.md\n"
    )
