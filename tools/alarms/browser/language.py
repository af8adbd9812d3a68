"""The words of the page in an operator's language: a TOML file, of which those in words/ are whole.

    words = load_words("de")                  # or the path of a file
    words.of("{count} new alarms", count=3)   # "3 neue Alarme"

A word is known by its English text. What stands in braces there is a value, which each language has too.
"""
import html
import json
import re
import tomllib
from pathlib import Path
from typing import Any, Union

from ..ending import Fault

WORDS = Path(__file__).resolve().parent / "words"
# Whose file has all words, each as it is.
ENGLISH = "en"
VALUE = re.compile(r"\{([a-z]+)\}")
# Of a page: a text between two tags, and an attribute that is read to somebody.
TEXT, ATTRIBUTE = re.compile(r"(?<=>)[^<>]+(?=<)"), re.compile(r'(?<=[ \n])(aria-label|title)="([^"]*)"')
CODE = re.compile(r"[a-z]{2,3}(-[A-Za-z0-9]{2,8})*")
MOST_LETTERS = 600


class NoWords(Fault):
    """A file isn't one of words; in one line."""


def fill(text: str, values: dict[str, Any]) -> str:
    """A text with values in the place of their names in braces."""
    return VALUE.sub(lambda found: str(values.get(found[1], "")), text)


def key_of(text: str) -> str:
    """A text as it is looked up: with one blank where a page has lines."""
    return " ".join(text.split())


class Words:
    """A language's code, and its words by those of English."""

    def __init__(self, code: str, words: dict[str, str]):
        self.code, self.words = code, words

    def of(self, text: str, **values: object) -> str:
        """A text in the language; in English where it isn't in the file."""
        return fill(self.words.get(text, text), values)

    def page(self, text: str) -> str:
        """A page of ours in the language."""

        def between(found: "re.Match[str]") -> str:
            key = key_of(found[0])
            return found[0].replace(found[0].strip(), html.escape(self.of(key), quote=False)) if key else found[0]

        said = TEXT.sub(between, text)
        said = ATTRIBUTE.sub(lambda found: f'{found[1]}="{html.escape(self.of(key_of(found[2])))}"', said)
        return said.replace('<html lang="en">', f'<html lang="{self.code}">')

    def script(self) -> str:
        """The module of the page that has the words."""
        return f"export const told = {json.dumps(self.words)};\n"


def texts_of(page: str) -> list[str]:
    """The texts of a page of ours that have a letter."""
    found = [key_of(text) for text in TEXT.findall(page)] + [key_of(text) for _, text in ATTRIBUTE.findall(page)]
    return [text for text in found if any(letter.isalpha() for letter in text)]


def shipped() -> list[str]:
    """The languages that are here."""
    return sorted(path.stem for path in WORDS.glob("*.toml"))


def read_words(text: str) -> Words:
    """The words in a TOML text; `Fault` says which of them is wrong."""
    tree = tomllib.loads(text)
    code, words = tree.get("language"), tree.get("words")
    if set(tree) != {"language", "words"} or not isinstance(code, str) or not isinstance(words, dict):
        raise Fault("it has the key language and the table [words], and nothing else")
    if not CODE.fullmatch(code):
        raise Fault("language: it is no code as de or pt-BR")
    for word, said in words.items():
        if not isinstance(said, str) or not 0 < len(said) <= MOST_LETTERS or not said.isprintable():
            raise Fault(f"{word!r}: it has 1 to {MOST_LETTERS} letters that print")
        if sorted(VALUE.findall(word)) != sorted(VALUE.findall(said)):
            raise Fault(f"{word!r}: it has other values in braces")
    return Words(code, words)


def load_file(path: Union[str, Path]) -> Words:
    """The words of a file; `NoWords` says why there are none."""
    try:
        return read_words(Path(path).read_text(encoding="utf-8-sig"))
    except OSError as error:
        raise NoWords(f"{path}: {error.strerror}") from None
    except UnicodeDecodeError:
        raise NoWords(f"{path}: it isn't UTF-8") from None
    except (Fault, ValueError, RecursionError) as fault:
        raise NoWords(f"{path}: {fault}") from None


def load_words(name: str) -> Words:
    """The words of a language that is here, or of a file."""
    return load_file(WORDS / f"{name}.toml" if name in shipped() else name)


def word_lines(words: Words) -> list[str]:
    """What a file has too few and too many of the page's words: a line each."""
    all_words = load_file(WORDS / f"{ENGLISH}.toml").words
    few, many = [one for one in all_words if one not in words.words], [
        one for one in words.words if one not in all_words
    ]
    lines = [(few, "words are missing, and are told in English"), (many, "are no words of the page")]
    return [
        f"{len(some)} {what}: {'; '.join(some[:5])}{' ..' if len(some) > 5 else ''}" for some, what in lines if some
    ]
