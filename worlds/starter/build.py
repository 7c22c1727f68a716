#!/usr/bin/env python3
"""Builds ../starter.db: the wizard of seed.db types the lines of sources/*.moo to `moo script`, and the database is what the next checkpoint writes.

    worlds/starter/build.py [--print] [MOO]

MOO is the repository's `moo` by default; whatever understands `script DB`, `check DB` and `copy DB` does. With --print the
database goes to the output, and ../starter.db is as it was.
"""

import argparse
import pathlib
import re
import subprocess
import sys
import tempfile

HERE = pathlib.Path(__file__).resolve().parent
BEGIN = b"** LambdaMOO Database"

# The build prints nothing before the database but the loader's own first lines.
LOADER = re.compile(rb"1: (\*\*\* Connected \*\*\*|\{1, 0\}|Now programming #0:.*|Verb programmed\.)")


def script():
    """Returns the script: each line of the sources without comments. An empty line is typed as "", which the loader understands."""
    lines = [line for path in sorted((HERE / "sources").glob("*.moo")) for line in path.read_text().splitlines()]
    typed = ["line 1 " + (line or '""') for line in lines if not re.match(" *//", line)]
    return "\n".join(["open 1", *typed, "hangup 1", "moment 3600", *40 * ["flush"], "show", ""])


def run(moo, *words, given=b""):
    """Returns the output of the program. It ends the build where the program fails."""
    done = subprocess.run([moo, *words], input=given, stdout=subprocess.PIPE, check=False)
    if done.returncode:
        sys.exit(f"moo {words[0]} ended with status {done.returncode}:\n{done.stdout.decode(errors='replace')[-3000:]}")
    return done.stdout


def built(moo):
    """Returns the database, which the program takes, and copies as it is."""
    said, begin, database = run(moo, "script", str(HERE / "seed.db"), given=script().encode()).partition(BEGIN)
    wrong = [line for line in said.splitlines() if not LOADER.fullmatch(line)]
    if wrong or not begin:
        sys.exit(b"\n".join([*wrong, b"These lines went wrong."]).decode(errors="replace"))
    with tempfile.NamedTemporaryFile(suffix=".db") as file:
        file.write(begin + database)
        file.flush()
        run(moo, "check", file.name)
        if run(moo, "copy", file.name) != begin + database:
            sys.exit("moo copy prints another database than the checkpoint wrote")
    return begin + database


def main():
    parser = argparse.ArgumentParser(description="Builds the starter world from its sources.")
    parser.add_argument("--print", action="store_true", help="print the database; ../starter.db is as it was")
    parser.add_argument("moo", nargs="?", default=str(HERE.parents[1] / "moo"))
    words = parser.parse_args()
    database = built(words.moo)
    if words.print:
        sys.stdout.buffer.write(database)
        return
    new = HERE.parent / "starter.db.new"
    new.write_bytes(database)
    new.replace(HERE.parent / "starter.db")
    print(run(words.moo, "check", str(HERE.parent / "starter.db")).decode(), end="")


if __name__ == "__main__":
    main()
