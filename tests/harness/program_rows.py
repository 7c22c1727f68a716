"""Plays rows of `programs`: a program, and the value or the traceback that it ends in."""

import itertools
import re

from outcome import Outcome, Result
from row_file import Broken, parts, repeated


def lines_of(ended, below, before=""):
    """Returns the lines that are printed of what a program ended in: of a traceback with the lines below it."""
    lines = ended.split(" / ") + below if re.match(r"#-?\d+:", ended) else [ended]
    return "".join(f"{before}{line}\n" for line in lines).encode()


def play_alone(program, row):
    """Runs `moo expr` on a program."""
    if row.wanted is None:
        raise Broken("a verb is made over a database alone")
    wanted = Result(row.status, lines_of(repeated(row.wanted), ["(End of traceback)"]))
    return [Outcome(row.place, row.text, wanted, program.both(["expr"], repeated(row.given).encode()))]


def making(text):
    """Returns the program that makes the verb of a row `NAMES := PROGRAM` or `N:NAMES := PROGRAM`."""
    number, names, source = parts(r"(?:(\d+):)?([a-z\d* ]+) := (.+)", repeated(text))
    where, source = f"#{number or 1}", source.replace("\\", "\\\\").replace('"', '\\"')
    added = f'add_verb({where}, {{#3, "rxd", "{names}"}}, {{"none", "none", "none"}})'
    return f'return {{{added}, set_verb_code({where}, length(verbs({where})), {{"{source}"}})}};'


def play_typed(program, block):
    """Has the wizard type the programs of a block one after another. A suffix after each line parts what they print."""
    typed = [making(row.given) if row.wanted is None else repeated(row.given) for row in block.rows]
    ended = ["{0, {}}" if row.wanted is None else repeated(row.wanted) for row in block.rows]
    script = "open 1\nline 1 SUFFIX <<\n" + "".join(f"line 1 ;{source}\n" for source in typed)
    status, printed = program.both(["script", block.database], script.encode())
    pieces = printed.removeprefix(b"1: *** Connected ***\n").split(b"1: <<\n")
    below = ["... called from #3:eval", "(End of traceback)"]
    outcomes = [Outcome(row.place, row.text, Result(0, lines_of(end, below, "1: ")), Result(status, piece))
                for row, end, piece in itertools.zip_longest(block.rows, ended, pieces[: len(typed)], fillvalue=b"")]
    rest = b"1: <<\n".join(pieces[len(typed) :])
    return outcomes + [Outcome(block.place, "nothing is printed after the last program", Result(0, b""), Result(0, rest))] * bool(rest)
