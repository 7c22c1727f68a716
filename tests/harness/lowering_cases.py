"""Lowers the programs of every database here, with the program of the crate moo_syntax_lower_test. It is there after a run of the gate."""

import subprocess
from functools import partial

from outcome import PATIENCE, Outcome, Result, Skipped
from row_file import TOP

BUILT = TOP / "crates/moo_syntax_lower_test/out/moo_syntax_lower_test"
FOLDERS = ["worlds", "worlds/starter", "tests/databases", "examples"]

# No database: their texts are refused, and why is in tests/databases/refused.rows.
REFUSED = {"refused.db", "truncated.db"}


def databases():
    """Returns the databases of the worlds and of the tests."""
    return [path for folder in FOLDERS for path in sorted((TOP / folder).glob("*.db")) if path.name not in REFUSED]


def play(path):
    """Returns the outcome of a database: as many programs are lowered as its head counts, and no text is refused."""
    if not BUILT.is_file():
        raise Skipped("moo_syntax_lower_test is not built")
    text = path.read_bytes()
    done = subprocess.run([BUILT], input=text, capture_output=True, timeout=PATIENCE, check=False)
    wanted = b"%d programs lowered\n0 texts refused\n" % int(text.split(b"\n")[2])
    got = b"".join(done.stdout.splitlines(keepends=True)[:2]) + done.stderr
    return [Outcome(str(path.relative_to(TOP)), "lowered", Result(0, wanted), Result(done.returncode, got))]


def units():
    """Returns the units: one for each database."""
    return [(str(path.relative_to(TOP)), partial(play, path)) for path in databases()]
