#!/usr/bin/env python3
"""What lists keep of their memory after they got shorter: stress/programs/kept.py PROGRAM

A program makes 1,000 lists of 401 numbers and shortens each in one way. No list may then take more than four times the memory
of its elements, and a little for the program itself. It prints a line for each way."""

import re
import subprocess
import sys
from pathlib import Path

TOP = Path(__file__).resolve().parent.parent.parent
WORLD = TOP / "tests" / "databases" / "five.db"
LISTS, LENGTH = 1000, 401

# What shortens a list, and how many elements are left.
WAYS = [
    ("", 401),
    ("l = l[1..210];", 210),
    ("l = l[1..190];", 190),
    ("l = l[1..90];", 90),
    ("l = l[391..$];", 11),
    ("l = l[2..$ - 1];", 399),
    ("l[11..$] = {};", 10),
    ("l[1..390] = {};", 11),
    ("l[1..$] = {i};", 1),
    ("l[2..999] = {};", 1),
    ("l[1..180] = {}; l[1..100] = {}; l[1..60] = {};", 61),
    ("l[9..$ - 9] = {};", 18),
]

# An element takes 16 bytes, a list some 80 besides. The program may take so many KB more than without lists.
ELEMENT, LIST, SLACK = 16, 80, 1500


def peak(program, text):
    """The greatest size in memory, in KB, of a run that a wizard has evaluate this."""
    with subprocess.Popen([program, "script", WORLD], stdin=subprocess.PIPE, stdout=subprocess.PIPE) as run:
        run.stdin.write(f"open 1\nline 1 ;{text}\n".encode())
        run.stdin.flush()
        said = [run.stdout.readline().decode("latin-1") for _ in range(2)]
        if said[1] != f"1: {LISTS}\n":
            sys.exit(f"{text}\n{said[1]}")
        status = Path(f"/proc/{run.pid}/status").read_text()
    return int(re.search(r"VmHWM:\s+(\d+) kB", status)[1])


def main():
    if len(sys.argv) != 2:
        sys.exit(__doc__)
    program = sys.argv[1]
    made = f"b = {{}}; for i in [1..{LENGTH - 1}] b = {{@b, i}}; endfor r = {{}}; "
    alone = peak(program, f"{made}return {LISTS};")
    failed = 0
    for way, left in WAYS:
        loop = f"for i in [1..{LISTS}] l = {{@b, 0}}; {way} r = {{@r, l}}; endfor return length(r);"
        taken = peak(program, made + loop) - alone
        most = LISTS * (4 * left * ELEMENT + LIST) // 1024 + SLACK
        failed += taken > most
        print(f"{'more than' if taken > most else 'within   '} {most:6} KB: {taken:6} KB for {left:3} of {LENGTH}  {way}")
    print(f"{len(WAYS) - failed} passed, {failed} failed")
    sys.exit(bool(failed))


main()
