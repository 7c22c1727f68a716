"""What a row wanted and what it got, and how a difference is shown."""

import difflib
import os
import subprocess
from typing import NamedTuple, Optional

PATIENCE = 600
LONGEST_LINE = 300
MOST_LINES = 40


class Result(NamedTuple):
    """An exit status (none: the program was ended after ten minutes) and what was printed."""

    status: object
    printed: bytes


class Outcome(NamedTuple):
    """What a row wanted and what it got. `title` says what was run. A row that could not be played has no `wanted`."""

    place: str
    title: str
    wanted: Optional[Result]
    got: Result

    def is_passed(self):
        return self.wanted == self.got


class Skipped(Exception):
    """A case cannot be played on this machine; the text says why."""


def fault(place, error):
    """Returns the failed outcome of a row that could not be played."""
    return Outcome(place, f"could not be played: {type(error).__name__}: {error}", None, Result(None, b""))


class Program:
    """The program that is tested, and a folder for files that last as long as the tests."""

    def __init__(self, path, folder):
        self.path, self.folder = path, folder

    def run(self, words, given=b"", folder=None, errors=""):
        """Runs the program with these words and this input. Returns its status, its output and its standard error, which the shell's words
        `errors` lead elsewhere."""
        words = [word if isinstance(word, bytes) else str(word) for word in words]
        line = ["moo", *words] if not errors else ["sh", "-c", f'exec "$0" "$@" {errors}', self.path, *words]
        try:
            done = subprocess.run(line, executable=None if errors else self.path, input=given, capture_output=True,
                                  timeout=PATIENCE, check=False, cwd=folder or self.folder)
        except subprocess.TimeoutExpired:
            return None, b"", b""
        return done.returncode, done.stdout, done.stderr

    def both(self, words, given=b"", folder=None, errors=""):
        """Runs the program. The result has what it printed, and after it its standard error."""
        status, printed, logged = self.run(words, given, folder, errors)
        return Result(status, printed + logged)

    def output(self, words, given=b"", folder=None):
        """Runs the program. The result has its output alone."""
        return Result(*self.run(words, given, folder)[:2])


def shown(line):
    """Returns a line as it is shown: without bytes that control a terminal, and cut if it is long."""
    text = "".join(letter if letter.isprintable() else letter.encode("unicode_escape").decode() for letter in line)
    return text if len(text) <= LONGEST_LINE else f"{text[:LONGEST_LINE]} .. ({len(text)} characters)"


def lines_of(result):
    """Returns what was printed, as lines that are shown."""
    if not result.printed:
        return ["(nothing)"]
    lines = result.printed.decode("utf-8", "backslashreplace").split("\n")
    return [shown(line) for line in (lines[:-1] if lines[-1] == "" else [*lines[:-1], lines[-1] + "(no line feed)"])]


def first_difference(wanted, got):
    """Returns a sentence on the first byte that differs."""
    at = len(os.path.commonprefix([wanted, got]))
    near = slice(max(0, at - 20), at + 40)
    return f"the first difference is at byte {at}: wanted {wanted[near]!r}, got {got[near]!r}"


def describe(outcome):
    """Returns the lines that show a failed outcome."""
    if outcome.wanted is None:
        return [f"FAILED {outcome.place}: {outcome.title}"]
    wanted, got = lines_of(outcome.wanted), lines_of(outcome.got)
    said = [f"FAILED {outcome.place}: {shown(outcome.title)}"]
    if len(wanted) + len(got) <= MOST_LINES:
        said += [f"  wanted, with status {outcome.wanted.status}:", *(f"    {line}" for line in wanted)]
        said += [f"  got, with status {outcome.got.status}:", *(f"    {line}" for line in got)]
    else:
        said.append(f"  wanted status {outcome.wanted.status}, got status {outcome.got.status}; lines with - are wanted, with + got:")
        said += [f"    {line}" for line in list(difflib.unified_diff(wanted, got, lineterm="", n=2))[2 : 2 + MOST_LINES]]
    if outcome.wanted.printed != outcome.got.printed:
        said.append("  " + first_difference(outcome.wanted.printed, outcome.got.printed))
    return said
