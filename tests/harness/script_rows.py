"""Plays rows of `scripts`: lines that `moo script` reads, and what it prints."""

from outcome import Outcome, Result
from row_file import Row, bytes_of


def play_script(program, row, database):
    """Runs a script over the database."""
    if isinstance(row, Row):
        wanted = bytes_of(row.wanted)
        wanted = Result(row.status, wanted + b"\n" if wanted else b"")
        return [Outcome(row.place, row.text, wanted, program.output(["script", database], bytes_of(row.given)))]
    return play_transcript(program, row, database)


def part(lines):
    """Returns a script and what it prints."""
    script = "".join(line[2:] + "\n" for line in lines if line.startswith("> "))
    return script.encode(), "".join(line + "\n" for line in lines if not line.startswith("> ")).encode()


def parts_of(lines):
    """Returns the script up to each of its lines, with what is printed up to there. If all is printed at its end, only the whole."""
    typed = [at for at, line in enumerate(lines) if line.startswith("> ")]
    ends = typed[1:] if any(not line.startswith("> ") for line in lines[: typed[-1]]) else []
    return [part(lines[:end]) for end in (*ends, len(lines))]


def play_transcript(program, row, database):
    """Runs the script up to each of its lines, so that what is printed is seen to come from the line before it."""
    *before, whole = parts_of(row.lines)
    played = [(script, Result(0, printed)) for script, printed in before] + [(whole[0], Result(row.status, whole[1]))]
    for script, wanted in played:
        got = program.output(["script", database], script)
        if got != wanted:
            return [Outcome(row.place, f"the script up to its line {script.decode().split(chr(10))[-2]!r}", wanted, got)]
    if row.status and not is_reached(program, database, whole[0]):
        return [Outcome(row.place, "the lines before the last one end the script", Result(0, b""), Result(row.status, b""))]
    return [Outcome(row.place, row.lines[0], wanted, got)]


def is_reached(program, database, script):
    """Is true if the lines before the last one do not end the script."""
    before = script[: script.rstrip(b"\n").rfind(b"\n") + 1]
    return not before or program.output(["script", database], before).status == 0
