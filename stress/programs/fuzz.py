#!/usr/bin/env python3
"""Plays random programs in two builds of `moo`, and compares what they print: values, tracebacks and ticks.

    stress/programs/fuzz.py PROGRAM OTHER [COUNT] [SEED]     COUNT programs, 10,000 if none is given; SEED is 1 if none is given

A wizard of tests/databases/five.db types them. Before each program the properties and verbs that it may change get their values again, and after it they
are printed. Half of the programs begin with few ticks left, and half run without the d bit. Each server plays 50 programs by a seed of its own. The
script prints the first difference of a server, and its seed: `fuzz.py PROGRAM OTHER 50 SEED` plays these 50 alone. The last line is
`N passed, M failed` and counts servers. The status is 1 if any failed."""

import collections
import itertools
import pathlib
import random
import re
import subprocess
import sys

sys.dont_write_bytecode = True

from grammar import program  # noqa: E402

DATABASE = pathlib.Path(__file__).resolve().parents[2] / "tests/databases/five.db"

# How many programs a server plays.
SHARE = 50

# How long a server may take, in seconds.
PATIENCE = 300

VERBS = {
    "f": "{x} = args; y = x + 1; return y * 2;",
    "g": "return args;",
    "h": "a = 1; {?x = 3, @r} = args; this.p = this.p; if (x) return {x, @r}; endif",
    "mild": 'x = {@args, 1 / 0}; x[1] = x[$] + nosuch; s = "ab"; s = s + "c"; s[1] = "x"; return {x, s};',
    "fresh": 'l = {1, {2, {3}}, "ab"}; l[1] = args; l[2][2][1] = length(l[3]); l[3][1] = "x"; return {@l, {4, "c"}, typeof({})};',
    "deep": "return length(callers()) < 45 ? `this:deep(@args) ! E_TYPE' | this:f(@args);",
}
PROPERTIES = {"p": "1", "q": "{1, 2, 3}", "r_long_property_name": '"abcdef"'}


def quoted(text):
    return '"' + text.replace("\\", "\\\\").replace('"', '\\"') + '"'


def preparation():
    """Returns the programs that make the properties and the verbs."""
    yield " ".join(f'add_property(#1, "{name}", {value}, {{#3, "rw"}});' for name, value in PROPERTIES.items())
    yield " ".join(f'add_verb(#1, {{#3, "rxd", "{name}"}}, {{"this", "none", "this"}});' for name in VERBS)


def restoration(rights):
    """Returns the statements that give the properties and the verbs their values again. The verb that runs typed programs gets these rights."""
    yield 'move(#2, #-1); chparent(#2, #1); for x in (properties(#2)) delete_property(#2, x); endfor add_property(#2, "extra", {5}, {#3, "rw"});'
    for name, value in PROPERTIES.items():
        yield f'set_property_info(#1, "{name}", {{#3, "rw"}}); #1.{name} = {value}; clear_property(#2, "{name}");'
    for name, source in VERBS.items():
        yield f'set_verb_info(#1, "{name}", {{#3, "{"rx" if name == "mild" else "rxd"}", "{name}"}}); set_verb_code(#1, "{name}", {{{quoted(source)}}});'
    yield f'for o in ({{#0, #1, #2, #3}}) o.name = "named"; endfor set_verb_info(#1, "t", {{#3, "{rights}", "t"}});'


def typed(seed):
    """Returns what is typed to a server: for each program its restoration, itself, and what prints the properties."""
    chance = random.Random(seed)
    yield from preparation()
    for _ in range(SHARE):
        yield " ".join(restoration(chance.choice(["rxd", "rx"])))
        yield program(chance)
        yield f"return {{{', '.join('#1.' + name for name in PROPERTIES)}, #2.p, #2.q, `#2.extra ! ANY', verb_code(#1, \"f\"), #2.name, parent(#2)}};"


def printed(moo, programs):
    """Returns what a build prints for each program, and its status."""
    script = "open 1\nline 1 SUFFIX <<\n" + "".join(f"line 1 ;{source}\n" for source in programs)
    done = subprocess.run([moo, "script", DATABASE], input=script.encode(), capture_output=True, timeout=PATIENCE, check=False)
    return done.stdout.decode("latin-1").removeprefix("1: *** Connected ***\n").split("1: <<\n"), done.returncode


def ended(piece):
    """Returns in which way a program ended."""
    found = re.search(r"Task ran out of ticks|Line \d+:  Parse error|Line \d+:", piece)
    return found[0] if found else "an error" if "(End of traceback)" in piece else "a value"


def difference(first, second, seed):
    """Returns whether the builds differ on the programs of a seed, and how often the programs ended in each way. Prints the first difference."""
    programs = list(typed(seed))
    (one, status), (other, other_status) = (printed(moo, programs) for moo in (first, second))
    ends = collections.Counter(ended(piece) for piece in one[3:-1:3])
    for source, left, right in itertools.zip_longest(programs, one, other):
        if left != right:
            print(f"seed {seed}: {source}\n{first}:\n{left}\n{second}:\n{right}\n")
            return True, ends
    if status != other_status:
        print(f"seed {seed}: {first} ends with status {status}, {second} with {other_status}\n")
    return status != other_status, ends


def main():
    first, second = sys.argv[1:3]
    count = int(sys.argv[3]) if len(sys.argv) > 3 else 10_000
    seed = int(sys.argv[4]) if len(sys.argv) > 4 else 1
    ends, failed, played = collections.Counter(), 0, -(-count // SHARE)
    for share in range(seed, seed + played):
        differs, more = difference(first, second, share)
        failed += differs
        ends += more
    print("programs that ended in " + ", ".join(f"{way}: {number}" for way, number in ends.most_common()))
    print(f"{played - failed} passed, {failed} failed")
    sys.exit(1 if failed else 0)


main()
