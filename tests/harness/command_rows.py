"""Plays rows of `expressions` and of `command lines`."""

import re
import shutil
import socket
import tempfile

from outcome import Outcome, Result
from row_file import Broken, Transcript, bytes_of, databases


def play_expression(program, row):
    """Runs `moo expr` on the bytes of the row."""
    wanted = Result(row.status, bytes_of(row.wanted) + b"\n")
    return [Outcome(row.place, row.text, wanted, program.both(["expr"], bytes_of(row.given)))]


def play_command_line(program, row):
    """Runs a command line in a folder that has the databases. TAKEN is replaced by a port that is in use, PORT by one that the system gave. A last
    word `2>..` leads standard error elsewhere, as in the shell."""
    if not isinstance(row, Transcript) or not row.lines[0].startswith("> moo"):
        raise Broken("a command line begins with `> moo`")
    words = row.lines[0].split()[2:]
    errors = words.pop() if words and words[-1].startswith("2>") else ""
    given = "".join(line[2:] + "\n" for line in row.lines[1:] if line.startswith("< "))
    wanted = "".join(line + "\n" for line in row.lines[1:] if not line.startswith("< "))
    with tempfile.TemporaryDirectory(dir=program.folder) as folder, socket.create_server(("127.0.0.1", 0)) as taken:
        for path in databases():
            shutil.copy(path, folder)
        port = str(taken.getsockname()[1])
        status, printed = program.both([port if word == "TAKEN" else bytes_of(word) for word in words], given.encode(), folder, errors)
    printed = re.sub(rb"(listening on \S+:)\d+", rb"\1PORT", printed.replace(b":" + port.encode(), b":TAKEN"))
    return [Outcome(row.place, row.lines[0][2:], Result(row.status, wanted.encode()), Result(status, printed))]
