"""Plays rows of `changes`, `objects`, `verbs` and `calls`: databases, and what `moo check`, `moo copy` and the scripts of worlds/refused print of them."""

import re
import subprocess
import sys
import tempfile

from outcome import PATIENCE, Outcome, Result
from row_file import TOP, Broken, bytes_of, parts, repeated

END = "0 clocks\n0 queued tasks\n0 suspended tasks\n0 active connections with listeners\n"


class Database:
    """A file with this text, while a `with` block runs."""

    def __init__(self, program, text):
        self.program, self.text = program, text

    def __enter__(self):
        self.file = tempfile.NamedTemporaryFile(dir=self.program.folder, suffix=".db")
        self.file.write(self.text)
        self.file.flush()
        return self

    def __exit__(self, *_):
        self.file.close()

    def run(self, *words):
        """Runs the program over the file."""
        return self.program.both([*words, self.file.name])


def counts_of(text):
    """Returns what `moo check` prints of a text that it takes."""
    lines = text.split(b"\n")
    connected = re.search(rb"^(\d+) active connections", text, re.M)
    return b"%b objects, %b programs, %b connected\n" % (lines[1], lines[2], connected[1] if connected else b"0")


def play_text(program, row, text, copy):
    """Checks and copies a text: both print the fault that the row wants, or the copy is `copy`."""
    with Database(program, text) as file:
        got = [file.run("check"), file.run("copy")]
    if row.status:
        wanted = 2 * [Result(row.status, row.wanted.encode() + b"\n")]
    else:
        wanted = [Result(0, counts_of(text)), Result(0, copy)]
    for command, want, has in zip(["check", "copy"], wanted, got):
        if want != has:
            return [Outcome(row.place, f"moo {command} of {row.text}", want, has)]
    return [Outcome(row.place, row.text, wanted[1], got[1])]


def changed(base, changes):
    """Returns the database with lines of it replaced. They are counted from 1, as they are in the database."""
    lines, new = dict(enumerate(re.findall(rb"[^\n]*\n", base), 1)), {}
    for change in changes.split(" & "):
        first, last, text = parts(r"(\d+)(?:-(\d+))?: ?(.*)", change)
        places = range(int(first), int(last or first) + 1)
        if not places or new.keys() & set(places) or not lines.keys() >= set(places):
            raise Broken(f"lines that the database doesn't have: {changes[:200]!r}")
        new |= dict.fromkeys(places, b"")
        new[places[0]] = bytes_of(text)
    return b"".join({**lines, **new}.values())


def play_change(program, row, base):
    """Plays a row over a database: a change of its lines, and what is read of the changed text."""
    if row.wanted.startswith("kept for"):
        return play_numbers(program, row, base)
    text_of = lambda words: base if words == "the database" else changed(base, words)
    text = text_of(row.given)
    if text == base and row.given != "the database":
        raise Broken(f"changes nothing: {row.given[:200]!r}")
    if row.wanted == "truncated":
        return play_cuts(program, row, text)
    return play_text(program, row, text, text if row.status or row.wanted == "kept" else text_of(row.wanted))


def play_cuts(program, row, text):
    """Checks the text cut after any of its bytes: the line that is missing is truncated."""
    for end in range(len(text)):
        with Database(program, text[:end]) as file:
            got = file.run("check")
        wanted = Result(1, b"line %d: Truncated\n" % (text[:end].count(b"\n") + 1))
        if got != wanted:
            return [Outcome(row.place, f"{row.text}, cut after {end} bytes", wanted, got)]
    return [Outcome(row.place, row.text, wanted, got)]


def play_numbers(program, row, base):
    """Puts each number from -4 to 259 in the place of N: those in the ranges are kept, others are not read."""
    line, = parts(r"(\d+): N\\n", row.given)
    ranges, = parts(r"kept for((?: -?\d+\.\.\d+)+)", row.wanted)
    bounds = [(int(first), int(last)) for first, last in re.findall(r"(-?\d+)\.\.(\d+)", ranges)]
    for number in range(-4, 260):
        text = changed(base, f"{line}: {number}\\n")
        is_kept = any(first <= number <= last for first, last in bounds)
        wanted = Result(0, text) if is_kept else Result(1, f"line {line}: BadNumber\n".encode())
        with Database(program, text) as file:
            got = file.run("copy")
        if got != wanted:
            return [Outcome(row.place, f"{row.text}, with {number}", wanted, got)]
    return [Outcome(row.place, row.text, wanted, got)]


def made_of(objects):
    """Returns the database of these objects."""
    text = f"** LambdaMOO Database, Format Version 4 **\n{objects.count(',') + 1}\n0\n0\n0\n"
    for number, words in enumerate(objects.split(",")):
        if not words.strip():
            text += f"#{number} recycled\n"
            continue
        *links, name, cells = parts(r" ?(-?\d+) (-?\d+) (-?\d+) (\w+|-) \*([vc]*)\*", words)
        text += f"#{number}\nthing\n\n0\n3\n-1\n-1\n-1\n" + "".join(link + "\n" for link in links) + "0\n" + ("0\n" if name == "-" else f"1\n{name}\n")
        text += f"{len(cells)}\n" + cells.replace("v", "0\n1\n3\n1\n").replace("c", "5\n3\n1\n")
    return (text + END).encode()


def play_objects(program, row):
    """Plays a row whose database is given by the links and properties of its objects."""
    text = made_of(row.given)
    return play_text(program, row, text, text if row.status or row.wanted == "kept" else made_of(row.wanted))


def database_of(programs, end):
    """Returns the database of one object with a verb for each program, and this end."""
    count = len(programs)
    head = f"** LambdaMOO Database, Format Version 4 **\n1\n{count}\n0\n0\n#0\nSystem\n\n16\n0\n-1\n-1\n-1\n-1\n-1\n-1\n{count}\n"
    sources = b"".join(b"#0:%d\n%b.\n" % (verb, source) for verb, source in enumerate(programs))
    return head.encode() + count * b"do_login_command\n0\n173\n-1\n" + b"0\n0\n" + sources + end


def play_verbs(program, row):
    """Runs `moo check --all` and worlds/refused/refused.py over a database with these programs, and checks the copy that the latter mends."""
    given, _, end = row.given.partition(" && ")
    programs = [bytes_of(source) for source in repeated(given).split(" & ")]
    wanted = Result(row.status, bytes_of(row.wanted) + b"\n")
    last = wanted.printed.splitlines(keepends=True)[-1]
    counts = b"1 objects, %d programs, 0 connected\n" % len(programs)
    mended = Result(1, last) if last.startswith(b"line ") else Result(0, counts)
    with Database(program, database_of(programs, bytes_of(end) or END.encode())) as old, Database(program, b"") as new:
        words = [sys.executable, "-B", TOP / "worlds/refused/refused.py", "--moo", program.path, old.file.name, new.file.name]
        done = subprocess.run(words, stdout=subprocess.PIPE, timeout=PATIENCE, check=False)
        got = [(wanted, Result(done.returncode, done.stdout)), (wanted, old.run("check", "--all")), (mended, new.run("check"))]
        with open(old.file.name, "rb") as file:
            got.append((Result(0, old.text), Result(0, file.read())))
    titles = ["refused.py of", "moo check --all of", "moo check of the mended copy of", "refused.py changed the database of"]
    for title, (want, has) in zip(titles, got):
        if want != has:
            return [Outcome(row.place, f"{title} {row.text}", want, has)]
    return [Outcome(row.place, row.text, *got[0])]


def play_calls(program, row):
    """Runs worlds/refused/missing.py over a database with these programs, and over a copy of it with CR LF."""
    given, _, end = row.given.partition(" && ")
    text = database_of([bytes_of(source) for source in repeated(given).split(" & ")], bytes_of(end) or END.encode())
    wanted = Result(row.status, bytes_of(row.wanted) + b"\n" if row.wanted else b"")
    outcomes = []
    for title, written in ("", text), ("with CR LF: ", text.replace(b"\n", b"\r\n")):
        with Database(program, written) as old:
            words = [sys.executable, "-B", TOP / "worlds/refused/missing.py", "--moo", program.path, old.file.name]
            done = subprocess.run(words, stdout=subprocess.PIPE, stderr=subprocess.DEVNULL, timeout=PATIENCE, check=False)
            outcomes.append(Outcome(row.place, title + row.text, wanted, Result(done.returncode, done.stdout)))
    return outcomes
