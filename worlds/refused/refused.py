#!/usr/bin/env python3
"""Prints every program of a database that is refused, a line each with its place.

    python3 refused.py [--moo COMMAND] DB [MENDED]

`moo check` reports the first fault of a database. If that is a program's, this script asks it about the programs from there on,
some hundred at a time, in small databases of their own. In a copy it empties those that are refused (their lines stay as empty
ones, so that each line keeps its number), and asks it about the copy. It prints each refused program as `moo check` would if it
were the first, in order. Then comes `N programs refused`, or a fault of the copy that is no program's: nothing after that is
reported. MENDED gets the text with the refused programs empty. DB is never written.

The exit status is 0 if nothing is refused, 1 if something is, 3 if DB can't be read or MENDED can't be written, 4 if memory ran
out, and 2 for a command line that asks for nothing or names no program.
"""

import argparse
import pathlib
import re
import subprocess
import sys
import tempfile
from typing import NamedTuple

# The program, unless another is named.
MOO = pathlib.Path(__file__).resolve().parent.parent.parent / "moo"

# How many programs one small database has.
MANY = 200

TOLD = re.compile(rb"line (\d+): Program #\d+:(\d+) (line \d+ \w+)\n")
PLACE = re.compile(rb"line (\d+): .*\n")
FIRST = re.compile(rb"#\d+:\d+")

HEAD = b"** LambdaMOO Database, Format Version 4 **\n1\n%d\n0\n0\n#0\n\n\n0\n0\n-1\n-1\n-1\n-1\n-1\n-1\n%d\n"
VERB = b"verb\n0\n0\n-1\n"
NO_PROPERTIES = b"0\n0\n"
TAIL = b"0 clocks\n0 queued tasks\n0 suspended tasks\n0 active connections with listeners\n"


class Program(NamedTuple):
    """A program of a text: its `#O:V`, the number of that line from 1, and that of its dot."""

    name: bytes
    line: int
    dot: int


class Moo:
    """`moo check`, over texts that are written to a file of this room."""

    def __init__(self, command, room):
        self.command = command
        self.path = pathlib.Path(room) / "copy.db"

    def check(self, text):
        """The exit status, and what is printed."""
        self.path.write_bytes(text)
        done = subprocess.run([self.command, "check", str(self.path)], stdout=subprocess.PIPE, check=False)
        return done.returncode, done.stdout


def programs_from(lines, line):
    """The programs of the text from this line on, each with its dot."""
    while line <= len(lines) and FIRST.fullmatch(lines[line - 1]):
        dot = line + 1
        while dot <= len(lines) and lines[dot - 1] != b".":
            dot += 1
        if dot > len(lines):
            return
        yield Program(lines[line - 1], line, dot)
        line = dot + 1


def small(lines, programs):
    """A database of one object with a verb for each of these programs."""
    sources = (b"#0:%d\n" % v + b"".join(l + b"\n" for l in lines[p.line : p.dot]) for v, p in enumerate(programs))
    return HEAD % (len(programs), len(programs)) + VERB * len(programs) + NO_PROPERTIES + b"".join(sources) + TAIL


def refused(moo, lines, line):
    """The refused programs from this line on, and why, up to a line of a source that no source can have."""
    programs = list(programs_from(lines, line))
    at = 0
    while at < len(programs):
        some = programs[at : at + MANY]
        status, said = moo.check(small(lines, some))
        told = TOLD.fullmatch(said)
        if told is None and status != 0:
            return
        if told is None:
            at += len(some)
        else:
            at += int(told[2]) + 1
            yield programs[at - 1], told[3]


def survey(moo, lines):
    """Empties the refused programs in `lines`; them, why they are refused, and what `moo check` says of the rest."""
    found = []
    status, said = moo.check(b"\n".join(lines))
    while told := TOLD.fullmatch(said):
        more = list(refused(moo, lines, int(told[1])))
        if not more:
            break
        for program, _ in more:
            lines[program.line : program.dot - 1] = [b""] * (program.dot - program.line - 1)
        found += more
        status, said = moo.check(b"\n".join(lines))
    return found, status, said


def tell(found, status, said, out):
    """Prints what is refused, and answers the exit status."""
    place = PLACE.fullmatch(said) if status == 1 else None
    before = [(p, why) for p, why in found if place is None or p.line < int(place[1])]
    for program, why in before:
        out.write(b"line %d: Program %s %s\n" % (program.line, program.name, why))
    if status != 0 or not before:
        out.write(said)
        return status
    out.write(b"%d programs refused\n" % len(before))
    return 1


def main():
    parser = argparse.ArgumentParser(description="Every program of a database that is refused.")
    parser.add_argument("--moo", default=str(MOO), help="the program (by default `moo` at the top of the repository)")
    parser.add_argument("DB", type=pathlib.Path)
    parser.add_argument("MENDED", type=pathlib.Path, nargs="?")
    words = parser.parse_args()
    try:
        lines = words.DB.read_bytes().split(b"\n")
    except OSError as error:
        print(error, file=sys.stderr)
        return 3
    try:
        with tempfile.TemporaryDirectory() as room:
            found, status, said = survey(Moo(words.moo, room), lines)
    except FileNotFoundError as error:
        print(error, file=sys.stderr)
        return 2
    if words.MENDED:
        try:
            words.MENDED.write_bytes(b"\n".join(lines))
        except OSError as error:
            print(error, file=sys.stderr)
            return 3
    return tell(found, status, said, sys.stdout.buffer)


if __name__ == "__main__":
    sys.exit(main())
