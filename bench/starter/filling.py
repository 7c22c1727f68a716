"""Fills the starter world with players and things, and plays scripts in it."""

import re
import resource
import subprocess
import sys
from pathlib import Path

TOP = Path(__file__).resolve().parent.parent.parent
PLAYERS, CONNECTED, THINGS = 1000, 200, 298
WIZARD = 1

OPEN = "$login.max_players = 100000; #2.free_exits = 1; #2.free_home = 1; #2.description = \"Planks.\"; move(me, #2);"


def players(count):
    """Returns statements that make this number of players."""
    return [f"for i in [{at}..{min(count, at + 9)}] $login:make(tostr(\"Player\", i, \"x\"), \"open-sesame\"); endfor" for at in range(1, count + 1, 10)]


def fill(count, things):
    """Returns statements that make players and things, in portions that end within the ticks of a task. The first 20 players are programmers."""
    return [
        OPEN,
        *players(count),
        *(f"for i in [{at}..{min(things, at + 49)}] o = create($thing); o.name = tostr(\"thing number \", i); "
          "o.aliases = {tostr(\"t\", i), tostr(\"other name \", i)}; move(o, #2); endfor" for at in range(1, things + 1, 50)),
        f"for i in [1..{min(20, count)}] p = $match:player_exact(tostr(\"Player\", i, \"x\")); "
        "p.programmer = 1; chparent(p, $prog); p.ownership_quota = 1000; endfor",
    ]


def play(moo, database, lines):
    """Plays a script, and returns its processor time and what it prints."""
    before = resource.getrusage(resource.RUSAGE_CHILDREN).ru_utime
    done = subprocess.run([moo, "script", database], input="".join(line + "\n" for line in lines).encode(), capture_output=True, check=False)
    took = resource.getrusage(resource.RUSAGE_CHILDREN).ru_utime - before
    if done.returncode:
        sys.exit(f"status {done.returncode}: {done.stdout[-300:]}")
    return took, done.stdout.decode()


def first_password(moo, database):
    """Returns the wizard's first password, from the log."""
    done = subprocess.run([moo, "script", database], input=b"open 1\n", capture_output=True, check=True)
    return re.search(r"connect wizard (\S+)", done.stderr.decode())[1]


def save(moo, database, path, login, statements):
    """Writes the world into which the wizard has typed these statements, after these lines."""
    lines = [f"open {WIZARD}", *(f"line {WIZARD} {text}" for text in login), *(f"line {WIZARD} ;{text}" for text in statements), f"hangup {WIZARD}", "moment 3600", *60 * ["flush"], "show"]
    printed = play(moo, database, lines)[1]
    head, mark, text = printed.partition("** LambdaMOO Database")
    faults = [line for line in head.split("\n") if re.search(r"FAULT|Traceback|ran out|Permission denied|not found|Invalid", line)]
    if faults or not mark:
        sys.exit("\n".join(faults[:5] or [head[-500:]]))
    Path(path).write_text(mark + text)


def connected(count):
    """Returns the lines by which the wizard and this number of players connect: the wizard on connection 1, Player1x on connection 2, and so on."""
    lines = [f"open {WIZARD}", f"line {WIZARD} connect wizard lantern"]
    for number in range(1, count + 1):
        lines += [f"open {number + 1}", f"line {number + 1} connect Player{number}x open-sesame"]
    return lines
