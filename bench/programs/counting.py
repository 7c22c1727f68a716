"""Plays the programs in MOO, CPython and Lua, and counts the instructions of each with Valgrind's callgrind.

All programs of a language run in one process. Callgrind begins a new count before each call of the C library's `write`, so a program's count is
what its process did from the last output before it to its own answer. An empty program's count is taken off."""

import os
import re
import resource
import shutil
import subprocess
import sys
import tempfile
from pathlib import Path

import world

HERE = Path(__file__).resolve().parent
CONNECTED = "0: *** Connected ***"
GROUPS = ["calls", "handlers", "properties", "lists", "strings", "utilities", "loops", "objects"]


class Program:
    """A program in three languages: its name, its group, its text in MOO, how many turns are measured, and what is in a turn."""

    def __init__(self, path):
        self.name, self.group, self.path = path.stem, path.parent.name, path
        self.text = path.read_text()
        try:
            self.turns, self.words = world.turns_of(self.text)
        except ValueError as fault:
            raise SystemExit(f"{path}: {fault}") from fault

    def file(self, kind):
        return self.path.with_suffix(f".{kind}")


def programs():
    """All programs, in the order of the groups, then of their names."""
    return [Program(path) for group in GROUPS for path in sorted((HERE / group).glob("*.moo"))]


def chosen_of(every, word):
    """The programs whose name has the word, or whose group it is; all, without a word."""
    chosen = [program for program in every if not word or word in program.name or word == program.group]
    if not chosen:
        sys.exit(f"no program has {word} in its name")
    return chosen


class Moo:
    """`moo script` over a world that has all programs."""

    def __init__(self, path, folder, every):
        self.database = f"{folder}/programs.db"
        Path(self.database).write_text(world.database_of({program.name: program.text for program in every}))
        self.command = [path, "script", self.database]
        self.line, self.ready = re.compile(r"0: (\S+) = (.*)"), "0: ready"

    def given(self, chosen, times=1):
        """The lines that play the programs: each once to warm up, by one turn, and then so often."""
        lines = ["open 0", "line 0 warm empty", "line 0 run empty 1"]
        for program in chosen:
            lines += [f"line 0 warm {program.name}", *times * [f"line 0 run {program.name} {program.turns}"]]
        return "".join(f"{line}\n" for line in lines)


class Other:
    """CPython or Lua. The empty program is played first."""

    def __init__(self, command, kind):
        self.command, self.kind = command, kind
        self.line, self.ready = re.compile(r"(\S+) = (.*)"), "ready"

    def given(self, chosen, times=1):
        rows = [f"empty {HERE / ('empty.' + self.kind)} 1 1"]
        rows += [f"{program.name} {program.file(self.kind)} {program.turns} {times}" for program in chosen]
        return "".join(f"{row}\n" for row in rows)


def python():
    return Other([sys.executable, "-S", "-s", "-B", str(HERE / "play.py")], "py")


def lua():
    """Lua 5.4, or nothing: LUA names it, if it isn't on the path."""
    for name in [os.environ.get("LUA"), "lua5.4", "lua"]:
        found = name and shutil.which(name)
        if found:
            return Other([found, str(HERE / "play.lua")], "lua")
    return None


def spent():
    """The processor seconds of all processes that have ended."""
    used = resource.getrusage(resource.RUSAGE_CHILDREN)
    return used.ru_utime + used.ru_stime


def play(command, given):
    """What a command prints, line by line, and the processor seconds that it takes."""
    before = spent()
    done = subprocess.run(command, input=given.encode(), capture_output=True, check=False, env={**os.environ, "PYTHONHASHSEED": "0"})
    took = spent() - before
    if done.returncode:
        sys.exit(f"{command[0]}: status {done.returncode}: {done.stdout[-500:].decode()}{done.stderr[-2000:].decode()}")
    return done.stdout.decode().splitlines(), took


def answers(language, printed, chosen):
    """The last answer of each program. If one has none, this ends with a message that shows what was printed besides."""
    found = {line[1]: line[2] for line in map(language.line.fullmatch, printed) if line}
    lost = [program.name for program in chosen if program.name not in found]
    if lost:
        besides = [line for line in printed if not language.line.fullmatch(line) and line != language.ready]
        sys.exit(f"{language.command[0]}: no answer of {', '.join(lost)}\n" + "\n".join(besides[-20:]))
    return found


def counts(language, chosen):
    """The instructions of each program, less those of the empty one, and its answer."""
    if not shutil.which("valgrind"):
        sys.exit("valgrind is missing (on Debian: apt-get install valgrind)")
    with tempfile.TemporaryDirectory() as folder:
        valgrind = ["valgrind", "--tool=callgrind", f"--callgrind-out-file={folder}/counts", "--combine-dumps=yes", "--dump-before=write", "--dump-line=no"]
        printed, _ = play([*valgrind, *language.command], language.given(chosen))
        parts = [int(line.split()[1]) for line in Path(f"{folder}/counts").read_text().split("\n") if line.startswith("totals:")]
    found = answers(language, printed, chosen)
    counted = by_answer(language, printed, parts)
    return {program.name: counted[program.name] - counted["empty"] for program in chosen}, found


def by_answer(language, printed, parts):
    """The instructions up to each program's last answer, or up to the first line that it notified.

    The last part has no `write` at its end. A line of output takes some calls of `write`, each line as many."""
    writes, rest = divmod(len(parts) - 1, len(printed))
    if rest or not writes:
        sys.exit(f"{language.command[0]}: {len(parts) - 1} calls of write for {len(printed)} lines")
    counted, begin = {}, 0
    for number, line in enumerate(printed):
        found = language.line.fullmatch(line)
        if found or line in (language.ready, CONNECTED):
            if found:
                counted[found[1]] = parts[begin * writes]
            begin = number + 1
    return counted


def check(chosen, found):
    """Ends with a message unless each program has the same answer in all languages."""
    wrong = []
    for program in chosen:
        given = {language: answer[program.name] for language, answer in found.items()}
        if len(set(given.values())) > 1:
            wrong.append(f"{program.name}: " + ", ".join(f"{language} has {answer}" for language, answer in given.items()))
    if wrong:
        sys.exit("\n".join(wrong))
