"""Checks that each command in the tables of the guides is typed in a transcript of the starter world, or in a session of a guide.

A command is text in backticks in the first column of a table whose heading is `Type`. In the page From LambdaCore each text in backticks in
the first column is one, and each in the second column that begins with `@`, `.` or `;`; the transcript lambdacore has to type them all. Its
first word counts, or its first letters if it begins with none."""

import re
from functools import partial

import guides
from outcome import Outcome, Result
from row_file import TOP
from starter import TRANSCRIPTS

LAMBDACORE = "lambdacore"

# A cell of a table may have a bar after a backslash, or in a text in backticks of two.
CELL = re.compile(r"(?:\\\||[^|])*")
QUOTED = re.compile(r"(`+) ?(.*?) ?\1")

# These are no commands: names of things, and verbs that programs call.
OTHER = re.compile(r"[$#(_]")


def tables(text):
    """Returns the rows of the tables of a page, each with the heading of its first column: lists of cells."""
    rows, heading = [], None
    for line in text.splitlines():
        if not line.startswith("|"):
            heading = None
            continue
        cells = [cell.strip() for cell in CELL.findall(line[1:]) if cell.strip()]
        if heading is None:
            heading = cells[0]
        elif cells and set(cells[0]) != {"-"}:
            rows.append((heading, cells))
    return rows


def commands_of(page):
    """Returns the commands in the tables of a page, in their order."""
    found = []
    for heading, cells in tables(page.read_text("utf-8")):
        if heading not in ("Type", "LambdaCore"):
            continue
        texts = [quoted[1] for quoted in QUOTED.findall(cells[0])]
        if heading == "LambdaCore":
            texts += [quoted[1] for quoted in QUOTED.findall(cells[-1]) if re.match(r"@|;|\.\w", quoted[1])]
        found += [text.replace("\\|", "|") for text in texts if text and not OTHER.match(text)]
    return found


def lines_typed(names):
    """Returns the lines that the transcripts of these names type."""
    return [line for name in names for line in re.findall(r"^line \d+ (.*)$", (TRANSCRIPTS / f"{name}.script").read_text(), re.MULTILINE)]


def is_typed(command, lines):
    """Is true if a line begins with the command's first word, or with the sign that is its first letters."""
    word = command.split()[0].rstrip("!") if re.match(r"[@\w]", command) else re.match(r"[^\w ]*", command)[0] or command
    return any(line.split()[:1] == [word] or line.split()[:1] == [word + "!"] or (not re.match(r"[@\w]", word) and line.startswith(word)) for line in lines)


def play_page(page):
    """Returns the outcome of a page. No command of it may be one that nothing types."""
    if page.stem == LAMBDACORE:
        lines = lines_typed([LAMBDACORE])
    else:
        steps = [step for other in guides.PAGES for session in guides.sessions(other) for step in session.steps]
        lines = lines_typed(sorted(path.stem for path in TRANSCRIPTS.glob("*.script")))
        lines += [line.split(" ", 2)[2] for step in steps for line in step.script if line.startswith("line ") and line.count(" ") > 1]
    missing = "".join(f"{command}\n" for command in commands_of(page) if not is_typed(command, lines))
    return [Outcome(str(page.relative_to(TOP)), "the commands that are typed nowhere", Result(0, b""), Result(0, missing.encode()))]


def units():
    """Returns a unit for each page that has such a table."""
    return [(str(page.relative_to(TOP)), partial(play_page, page)) for page in guides.PAGES if commands_of(page)]
