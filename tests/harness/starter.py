"""Builds the starter world from its sources, and plays its transcripts and the example of the page on scripts."""

import re
import subprocess
import sys
from functools import partial

from outcome import PATIENCE, Outcome, Result
from row_file import TOP, Broken

WORLD = TOP / "worlds/starter.db"
TRANSCRIPTS = TOP / "worlds/starter/tests"


def play_build(program):
    """Builds the world, and compares it with worlds/starter.db, byte for byte."""
    words = [sys.executable, "-B", TOP / "worlds/starter/build.py", "--print", program.path]
    done = subprocess.run(words, capture_output=True, timeout=PATIENCE, check=False)
    wanted = Result(0, WORLD.read_bytes())
    return [Outcome("worlds/starter", "the world built from its sources", wanted, Result(done.returncode, done.stdout or done.stderr))]


def play_transcript(program, name):
    """Plays NAME.script over the world, and compares what it prints with NAME.expected."""
    wanted = Result(0, (TRANSCRIPTS / f"{name}.expected").read_bytes())
    got = program.output(["script", WORLD], (TRANSCRIPTS / f"{name}.script").read_bytes())
    return [Outcome(f"worlds/starter/tests/{name}.script", "a transcript", wanted, got)]


def names():
    """Returns the names of the transcripts. A script or what it prints may be missing: playing it shows that."""
    return sorted({path.stem for path in TRANSCRIPTS.iterdir() if path.suffix in (".script", ".expected")})


def transcripts(program):
    """Returns the units that play all transcripts, each with its place."""
    return [(f"worlds/starter/tests/{name}.script", partial(play_transcript, program, name)) for name in names()]


def accept(program):
    """Writes what each transcript prints into its file NAME.expected."""
    for name in names():
        got = program.output(["script", WORLD], (TRANSCRIPTS / f"{name}.script").read_bytes())
        if got.status != 0:
            sys.exit(f"{name}.script ends with status {got.status}; {name}.expected is as it was")
        (TRANSCRIPTS / f"{name}.expected").write_bytes(got.printed)
        print(f"{name}.expected written")


def code_blocks(page):
    """Returns the blocks of code of the section `An example`: those between lines of ```, or those that are indented by four blanks."""
    section = re.search(r"^#+ An example\n(.*?)(?=^#|\Z)", page, re.DOTALL | re.MULTILINE)
    text = section[1] if section else ""
    fenced = re.findall(r"^```\w*\n(.*?)^```$", text, re.DOTALL | re.MULTILINE)
    indented = ["".join(line[4:] + "\n" for line in block.splitlines()) for block in re.findall(r"(?:^    .*\n)+", text, re.MULTILINE)]
    return fenced or indented


def play_example(program):
    """Plays the example of the page script.md of docs: its first block is the script, and its second what `moo script` prints."""
    pages = [path for path in (TOP / "docs").rglob("*.md") if path.name.lower() == "script.md"]
    if len(pages) != 1:
        raise Broken(f"docs has {len(pages)} pages script.md, not one")
    blocks = code_blocks(pages[0].read_text())
    if len(blocks) < 2:
        raise Broken("the page has no section `An example` with a script and what it prints")
    got = program.output(["script", TOP / "examples/small.db"], blocks[0].encode())
    return [Outcome(str(pages[0].relative_to(TOP)), "the example", Result(0, blocks[1].encode()), got)]
