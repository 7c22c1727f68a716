"""Parses the files of rows. tests/README.md describes their format."""

import pathlib
import re
from typing import NamedTuple, Optional

TOP = pathlib.Path(__file__).resolve().parents[2]

# The kinds of blocks, and whether a block of the kind names a database.
KINDS = {
    "expressions": "never",
    "command lines": "never",
    "programs": "sometimes",
    "scripts": "always",
    "changes": "always",
    "objects": "never",
    "verbs": "never",
    "calls": "never",
}


class Broken(Exception):
    """A file of rows does not have the format."""


class Row(NamedTuple):
    """A row of one line. A row that makes a verb has no `wanted`."""

    place: str
    text: str
    given: str
    wanted: Optional[str]
    status: int


class Transcript(NamedTuple):
    """A row of several lines, of which the first begins with `> `."""

    place: str
    lines: tuple
    status: int


class Block(NamedTuple):
    """Rows of one kind, perhaps over one database."""

    place: str
    kind: str
    database: Optional[pathlib.Path]
    rows: list


def database(name):
    """Returns the path of a database: it is in tests/databases or in examples."""
    for folder in ("tests/databases", "examples"):
        if (TOP / folder / name).is_file():
            return TOP / folder / name
    raise Broken(f"no such database: {name}")


def databases():
    """Returns the paths of all databases that rows may name."""
    return [*(TOP / "tests/databases").glob("*.db"), *(TOP / "examples").glob("*.db")]


def is_aside(line):
    """Is true of a line between two rows that is none: an empty one, or a comment."""
    return not line or line == "#" or line.startswith("# ")


def begin_block(place, line):
    """Returns the block that a line `== KIND` or `== KIND over DATABASE` begins."""
    kind, over, name = line.removeprefix("== ").partition(" over ")
    if kind not in KINDS:
        raise Broken(f"{place}: no such kind of rows: {kind!r}")
    if (KINDS[kind] == "always" and not over) or (KINDS[kind] == "never" and over):
        raise Broken(f"{place}: {kind} are {KINDS[kind]} over a database")
    try:
        return Block(place, kind, database(name) if over else None, [])
    except Broken as fault:
        raise Broken(f"{place}: {fault}") from None


def one_line(place, kind, line):
    """Returns the row of one line."""
    found = re.fullmatch(r"(.*?) -->(?: (.*?))?(?: >> ([1-9]\d*))?", line)
    if found:
        return Row(place, line, found[1], found[2] or "", int(found[3] or 0))
    if kind == "programs" and " := " in line:
        return Row(place, line, line, None, 0)
    raise Broken(f"{place}: a row without an arrow: {line[:200]!r}")


def transcript(place, lines):
    """Returns the row of these lines, of which the last is `>> ` and the status."""
    status = re.fullmatch(r">> (\d+)", lines[-1])
    if not status:
        raise Broken(f"{place}: the transcript has no end `>> STATUS`")
    return Transcript(place, tuple(lines[:-1]), int(status[1]))


def parse(name, text):
    """Returns the blocks of a file."""
    blocks, begun = [], []
    lines = text.removesuffix("\n").split("\n")
    for number, line in enumerate(lines, 1):
        place = f"{name}:{number}"
        if begun:
            begun.append(line)
            if line.startswith(">>") or number == len(lines):
                blocks[-1].rows.append(transcript(f"{name}:{number - len(begun) + 1}", begun))
                begun = []
        elif line.startswith("== "):
            blocks.append(begin_block(place, line))
        elif not is_aside(line):
            if not blocks:
                raise Broken(f"{place}: no line `== KIND` is before it")
            if line.startswith("> "):
                begun = [line]
            else:
                blocks[-1].rows.append(one_line(place, blocks[-1].kind, line))
    return blocks


def repeated(text):
    """Returns the text with each `\\[3 ab]` written out, here as `ababab`."""
    whole = re.sub(r"\\\[(\d+) ([^]]*)\]", lambda part: int(part[1]) * part[2], text)
    if re.search(r"\\\[\d", whole):
        raise Broken(f"a repetition that has no end: {text[:200]!r}")
    return whole


def bytes_of(text):
    """Returns the bytes of a text with the escapes `\\n`, `\\r`, `\\xNN` and repetitions."""
    whole = repeated(text)
    if re.search(r"\\(?!n|r|x[0-9a-f]{2})", whole):
        raise Broken(f"an escape that is none: {text[:200]!r}")
    return whole.encode("latin-1").decode("unicode_escape").encode("latin-1")


def parts(form, text):
    """Returns the groups of a form that the whole text has."""
    found = re.fullmatch(form, text, re.DOTALL)
    if not found:
        raise Broken(f"not of its form: {text[:200]!r}")
    return found.groups()
