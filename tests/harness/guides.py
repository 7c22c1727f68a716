"""Plays the sessions of the guides: the blocks of a page in which lines begin with `> `, over worlds/starter.db.

A block is indented by four blanks. A line with `> ` is typed, and the lines after it are what is seen of it. A line `..` is any number
of lines, `..` within a line any text. Lines with `$ ` are a shell's and not played. PASSWORD is the wizard's first one, from the log.
All blocks of a page are one session, on connection 1. Two comments in the source of a page direct it:

    <!-- script           lines of `moo script` that are played before the next block; what they print isn't compared
    <!-- not played: ..   the next block isn't played, and why
"""

import re
from functools import partial
from textwrap import dedent
from typing import NamedTuple

from outcome import Outcome, Result
from row_file import TOP, Broken
from starter import WORLD

PAGES = [TOP / "README.md", *sorted((TOP / "docs/manual").glob("*.md"))]

# Comments, and blocks of lines that are indented, with the empty lines between them.
PART = re.compile(r"<!--(?P<comment>.*?)-->|(?P<block>(?:^ {4}[^\n]*\n(?:[ ]*\n(?= {4}))*)+)", re.DOTALL | re.MULTILINE)

# A connection on which nobody is logged in. Its answers separate the answers to two lines of the session.
MARK = 60000


class Step(NamedTuple):
    """A line that is typed, or lines of a script that prepare a block, which have no `wanted`."""

    script: list
    wanted: object


class Session(NamedTuple):
    """A block with its steps, the first of which may prepare it."""

    place: str
    steps: list


def steps_of(block):
    """Returns the steps of a block: each typed line with the lines after it."""
    steps = []
    for line in dedent(block).rstrip("\n").split("\n"):
        if line.startswith("> "):
            steps.append(Step([f"line 1 {line[2:]}"], []))
        elif steps and not line.startswith("$ "):
            steps[-1].wanted.append(line)
    return steps


def sessions(page):
    """Returns the blocks of a page that are played, in their order."""
    text, found, before, reason = page.read_text("utf-8"), [], [], ""
    for part in PART.finditer(text):
        if part["comment"] is not None:
            word, _, rest = part["comment"].strip().partition("\n" if part["comment"].startswith(" script\n") else ":")
            before += rest.split("\n") if word == "script" else []
            reason = rest if word == "not played" else reason
            continue
        steps = steps_of(part["block"])
        if steps and not reason:
            place = f"{page.relative_to(TOP)}:{text.count(chr(10), 0, part.start()) + 1}"
            found.append(Session(place, [Step(before, None)] * bool(before) + steps))
        before, reason = ([], "") if steps else (before, reason)
    if before or reason:
        raise Broken(f"{page.name}: a comment after which no session comes")
    return found


def first_password(program):
    """Returns the wizard's first password, which the world makes and logs as it starts."""
    logged = program.run(["script", WORLD], b"open 1\n")[2].decode()
    found = re.search(r"connect wizard (\S+)", logged)
    if not found:
        raise Broken("the log has no first password of the wizard")
    return found[1]


def play_steps(program, steps):
    """Returns the status, and what connection 1 saw of each step."""
    script = [f"open {MARK}", "open 1", f"line {MARK} -"]
    for step in steps:
        script += [*step.script, f"line {MARK} -"]
    text = "\n".join(script[:-1])
    if "connect wizard PASSWORD" in text:
        text = text.replace("connect wizard PASSWORD", f"connect wizard {first_password(program)}")
    printed = program.output(["script", WORLD], text.encode() + b"\n")
    answers = [[]]
    for line in printed.printed.decode().split("\n")[:-1]:
        to, _, rest = line.partition(": ")
        if to == str(MARK) and "Please type" in rest:
            answers.append([])
        elif to == "1":
            answers[-1].append(rest)
        elif not to.isdigit():
            answers[-1].append(line)
    return printed.status, answers[1:]


def is_like(wanted, got):
    """Is true if the lines are those that are wanted. `..` is any text, or any number of lines."""
    form = "".join(r"(?:.*\n)*?" if line == ".." else r".*?".join(map(re.escape, line.split(".."))) + r"\n" for line in wanted)
    return re.fullmatch(form, "".join(line.rstrip() + "\n" for line in got)) is not None


def outcome(session, status, answers):
    """Returns what was wanted of a block and what it got. An answer that is like the wanted one counts as it."""
    wanted, got = [], []
    for step, lines in zip(session.steps, answers):
        if step.wanted is not None:
            wanted += [f"> {step.script[0].removeprefix('line 1 ')}", *step.wanted]
            got += [f"> {step.script[0].removeprefix('line 1 ')}", *(step.wanted if is_like(step.wanted, lines) else lines)]
    text = ["".join(line + "\n" for line in lines).encode() for lines in (wanted, got)]
    return Outcome(session.place, "a session", Result(0, text[0]), Result(status, text[1]))


def play_page(program, page):
    """Plays all sessions of a page, one after another in one world."""
    all_sessions = sessions(page)
    if not all_sessions:
        return []
    status, answers = play_steps(program, [step for session in all_sessions for step in session.steps])
    outcomes, at = [], 0
    for session in all_sessions:
        end = at + len(session.steps)
        missing = [["(the session had ended)"]] * (end - max(at, len(answers)))
        outcomes.append(outcome(session, status, answers[at:end] + missing))
        at = end
    return outcomes


def units(program):
    """Returns the units that play the pages with sessions, each with its place."""
    return [(str(page.relative_to(TOP)), partial(play_page, program, page)) for page in PAGES]
