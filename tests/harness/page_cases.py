"""The page for browsers: its crate has it as `web/build` writes it."""

import subprocess
import sys

from outcome import PATIENCE, Outcome, Result
from row_file import TOP

PLACE = "web/index.html"


def play():
    done = subprocess.run([sys.executable, TOP / "web/build", "--check"], capture_output=True, timeout=PATIENCE, check=False)
    return [Outcome(PLACE, "web/build --check", Result(0, b""), Result(done.returncode, done.stdout + done.stderr))]


def units():
    """Returns the unit of the page, with its place."""
    return [(PLACE, play)]
