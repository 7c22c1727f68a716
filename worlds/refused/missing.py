#!/usr/bin/env python3
"""Prints every call in the programs of a database that this server has no function for, or that has too many arguments here.

    python3 missing.py [--moo COMMAND] DB

A line `line 3604: #10:4 line 2 random` has the line of the file, the program (verbs are counted from 0), the line of its source,
and the name. `notify with 3 arguments` is a call that raises E_ARGS here. After that comes each name with its number of calls,
the most first, and then `N calls in M of P programs`. `moo script` says of each name whether there is such a function. Names in texts
and comments aren't looked at, so what `eval` will run isn't either. The database may have faults that `moo check` refuses, and
CR LF at the ends of its lines, if its objects and its tasks are whole around the programs. DB is never written.

The exit status is 0 if there is no such call, 1 if there is one, 3 if DB can't be read or has no programs where they should be,
and 2 for a command line that asks for nothing or names no program.
"""

import argparse
import collections
import pathlib
import re
import subprocess
import sys
import tempfile

from refused import FIRST, MOO, programs_from

# A database whose login answers 1 to a program and 0 to a text that is none. An opening is such a line too, an empty one.
ASKED = b"""** LambdaMOO Database, Format Version 4 **
1
1
0
0
#0
System

6
0
-1
-1
-1
-1
-1
-1
1
do_login_command
0
173
-1
0
0
#0:0
notify(player, tostr(eval(argstr)[1]));
.
0 clocks
0 queued tasks
0 suspended tasks
0 active connections with listeners
"""

TOKEN = re.compile(rb'"(?:\\.|[^"\\\n])*"|/\*.*?\*/|\.\.|[A-Za-z_][A-Za-z0-9_]*|\n|[^ \t]', re.DOTALL)
NAME = re.compile(rb"[A-Za-z_]")
CLOCKS = re.compile(rb"\d+ clocks")
KEYWORDS = set(b"if else elseif endif for in endfor while endwhile fork endfork return try endtry except finally any break continue".split())

# After these a name is that of a verb, a property or a loop, or a variable.
NOT_CALLED = {b":", b".", b"$", b"while", b"fork", b"except"}

# The most arguments of functions that take more in LambdaMOO.
MOST = {b"callers": 0, b"notify": 2, b"server_log": 1}


def programs_of(lines):
    """The programs of a database: they begin with a line `#O:V` and go on, without a gap, up to the line `N clocks`."""
    for number, line in enumerate(lines, 1):
        if FIRST.fullmatch(line):
            programs = list(programs_from(lines, number))
            if programs and programs[-1].dot < len(lines) and CLOCKS.fullmatch(lines[programs[-1].dot]):
                return programs
    return []


def arguments(tokens, at):
    """How many arguments the bracket at this token has at least, without those that are put in by `@`."""
    depth, commas, seen, spliced = 0, 0, False, False
    for token in tokens[at:]:
        depth += (token in (b"(", b"[", b"{")) - (token in (b")", b"]", b"}"))
        if depth == 0:
            break
        commas += depth == 1 and token == b","
        spliced = spliced or (depth == 1 and token == b"@")
        seen = seen or token not in (b"(", b"\n")
    return commas + seen - spliced


def calls(source):
    """The calls of functions in a program: the line of the source, the name in small letters, the least number of arguments."""
    line, tokens, lines = 1, [], []
    for token in TOKEN.findall(source):
        if not token.isspace() and not token.startswith(b"/*"):
            tokens.append(token)
            lines.append(line)
        line += token.count(b"\n")
    for at, token in enumerate(tokens[:-1]):
        before = tokens[at - 1].lower() if at else b""
        if NAME.match(token) and tokens[at + 1] == b"(" and before not in NOT_CALLED and token.lower() not in KEYWORDS:
            yield lines[at], token.lower(), arguments(tokens, at + 1)


def missing(command, names):
    """Those of these names that are no functions here. Each is asked as a call after a test that is false, so nothing is called."""
    lines = b"open 1\n" + b"".join(b"line 1 return 0 && %b();\n" % name for name in names)
    with tempfile.NamedTemporaryFile(suffix=".db") as file:
        file.write(ASKED)
        file.flush()
        done = subprocess.run([command, "script", file.name], input=lines, capture_output=True, check=False)
    answers = done.stdout.splitlines()[1:]
    if done.returncode != 0 or len(answers) != len(names):
        raise OSError(f"{command}: {(done.stdout + done.stderr).decode(errors='replace')}")
    return {name for name, answer in zip(names, answers) if answer != b"1: 1"}


def fault(lacks, name, count):
    """What is wrong with a call of this name, or None."""
    if name in lacks:
        return name
    return b"%b with %d arguments" % (name, count) if count > MOST.get(name, count) else None


def tell(programs, found, lacks, out):
    """Prints what is wrong with these calls, and answers the exit status."""
    counts, wrong = collections.Counter(), set()
    for program, line, name, count in found:
        said = fault(lacks, name, count)
        if said:
            out.write(b"line %d: %b line %d %b\n" % (program.line + line, program.name, line, said))
            counts[said] += 1
            wrong.add(program.name)
    for said, count in counts.most_common():
        out.write(b"%b: %d\n" % (said, count))
    out.write(b"%d calls in %d of %d programs\n" % (sum(counts.values()), len(wrong), len(programs)))
    return 1 if wrong else 0


def main():
    parser = argparse.ArgumentParser(description="The calls in a database of functions that this server lacks.")
    parser.add_argument("--moo", default=str(MOO), help="the program (by default `moo` at the top of the repository)")
    parser.add_argument("DB", type=pathlib.Path)
    words = parser.parse_args()
    try:
        lines = words.DB.read_bytes().replace(b"\r\n", b"\n").split(b"\n")
    except OSError as error:
        print(error, file=sys.stderr)
        return 3
    programs = programs_of(lines)
    if not programs and lines[2:3] != [b"0"]:
        print(f"{words.DB}: no programs up to a line 'N clocks'. `moo check` says at which line the file ends too early.", file=sys.stderr)
        return 3
    found = [(p, *call) for p in programs for call in calls(b"\n".join(lines[p.line : p.dot - 1]))]
    try:
        lacks = missing(words.moo, sorted({name for _, _, name, _ in found}))
    except OSError as error:
        print(error, file=sys.stderr)
        return 2
    return tell(programs, found, lacks, sys.stdout.buffer)


if __name__ == "__main__":
    sys.exit(main())
