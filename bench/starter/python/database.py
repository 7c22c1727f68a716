"""Reads a database in Format Version 4: what each object has, without programs."""

from dataclasses import dataclass, field

CLEAR = object()
INTEGER, OBJECT, STRING, ERROR, LIST, NONE = range(6)


@dataclass(frozen=True)
class Link:
    """The number of an object, as a value has it."""

    number: int


@dataclass
class Row:
    """An object: its name, its flags and links, the properties that it defines, and the values that it has itself."""

    name: str
    flags: int
    owner: int
    location: int
    first: int
    following: int
    parent: int
    defined: list = field(default_factory=list)
    stored: list = field(default_factory=list)
    values: dict = field(default_factory=dict)
    contents: list = field(default_factory=list)


def read(path):
    """Returns the rows of a database by their numbers."""
    with open(path, encoding="latin-1") as text:
        lines = iter(text.read().split("\n"))
    next(lines)
    count, _, _, players = (int(next(lines)) for _ in range(4))
    for _ in range(players):
        next(lines)
    rows = dict(filter(None, (read_object(lines) for _ in range(count))))
    for row in rows.values():
        row.values = {name: value for name, value in zip(names_of(rows, row), row.stored) if value is not CLEAR}
        row.contents = contents_of(rows, row)
    return rows


def read_object(lines):
    """Returns the number and the row of the next object, or nothing if the number is free."""
    head = next(lines).split()
    if len(head) > 1:
        return None
    name, _ = next(lines), next(lines)
    flags, owner, location, first, following, parent, _, _ = (int(next(lines)) for _ in range(8))
    row = Row(name, flags, owner, location, first, following, parent)
    for _ in range(4 * int(next(lines))):
        next(lines)
    row.defined = [next(lines) for _ in range(int(next(lines)))]
    for _ in range(int(next(lines))):
        row.stored.append(read_value(lines))
        next(lines), next(lines)
    return int(head[0][1:]), row


def read_value(lines):
    """Returns the next value. An object is a link, and a clear value is CLEAR."""
    kind = int(next(lines))
    if kind == LIST:
        return [read_value(lines) for _ in range(int(next(lines)))]
    if kind == NONE:
        return CLEAR
    text = next(lines)
    if kind == STRING:
        return text
    return Link(int(text)) if kind == OBJECT else int(text)


def names_of(rows, row):
    """Returns the names of all properties of an object, its own before those of its ancestors."""
    names = list(row.defined)
    while row.parent >= 0:
        row = rows[row.parent]
        names += row.defined
    return names


def contents_of(rows, row):
    """Returns the numbers of what is in an object, in their order."""
    found, number = [], row.first
    while number >= 0:
        found.append(number)
        number = rows[number].following
    return found
