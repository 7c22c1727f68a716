"""What the program does while growths are refused: its words, its standard input, and the faults of the disk that a script may meet."""

from pathlib import Path

TOP = Path(__file__).resolve().parent.parent.parent
SMALL = str(TOP / "stress/stops/small.db")
SEED = str(TOP / "worlds/starter/seed.db")
STARTER = str(TOP / "worlds/starter.db")
DAMAGED = str(TOP / "stress/refusals/damaged.db")

EXPRESSIONS = [
    b'{"a", {1, 2}, #3, E_PERM, 1 + 2 * 3, length("abc") + {1, 2, 3}[2..3][1]}',
    b"`1 / 0 ! E_DIV => tostr(\"none \", 5, {})'",
    b'eval("x = {}; for i in [1..20] x = {@x, tostr(i)}; endfor return x;")',
    b'{1, "a" + 1}',
    b"nosuch(1)",
    b"{1, 2",
]

SAVED = b"""open 1
line 1 ;#1.name = "A"; dump_database();
flush
line 1 ;#2.name = "B";
flush
flush
flush
flush
line 1 ;return {#1.name, #2.name, #0.marks, #0.gone};
show
"""

LIVES = b"""open 1
line 1 ;#1.name = "A"; dump_database();
flush
flush
flush
flush
reopen
open 1
line 1 ;#1.name = "B"; dump_database();
flush
hangup 1
flush
moment 5
flush
flush
flush
crash 0
open 1
line 1 ;return {#1.name, #2.name, #0.marks, #0.gone};
crash 1
"""

TYPED = b"""open 1
line 1 PREFIX >>
bytes 1 6c6f6f6b20222078200d
line 1 ;add_property(#1, "p", {}, {#3, "r"}); for i in [1..30] #1.p = {@#1.p, tostr(i)}; endfor
line 1 ;x = create(#1); move(x, #2); set_verb_code(#3, "eval", verb_code(#3, "eval")); return x.p;
line 1 .program #3:eval
line 1 notify(player, "evaluated: " + toliteral(eval(argstr)));
line 1 .
line 1 ;try #2.name = "X"; while (1) x = {1, {2, 3}}; endwhile finally #2.name = "Y"; endtry
line 1 ;recycle(#4); shutdown("over");
flush
flush
flush
flush
flush
flush
line 1 look
"""

GROWN = b"""open 1
line 1 ;r = {}; for i in [1..60] r = {@r, i}; endfor return r;
line 1 ;r = {}; for v in ({1, "two", #3, {4}, 5, 6, "seven", 8, 9, 10, 11, 12, 13}) r = {@r, v}; y = v; endfor return {r, y};
line 1 ;r = {}; i = 0; while (i < 40) i = i + 1; r = listappend(r, "a" + "b"); endwhile return r;
line 1 ;r = {}; for i in [1..30] r = {@r, i * 2}; if (i % 7 == 0) q = r; endif endfor return {r, q};
line 1 ;return 7;
"""


def faults(calls):
    """Returns, for each call of the disk that a script makes, the script in which it fails."""
    return [f"fail {number}\n".encode() for number in range(1, calls + 1)]


WORKS = [(f"moo expr, {line.decode()}", ["expr"], line + b"\n", []) for line in EXPRESSIONS] + [
    ("moo check, a world", ["check", SMALL], b"", []),
    ("moo check, a damaged one", ["check", DAMAGED], b"", []),
    ("moo check, the starter's seed", ["check", SEED], b"", []),
    ("moo check --all, a damaged one", ["check", "--all", DAMAGED], b"", []),
    ("moo check --all, the starter's seed", ["check", "--all", SEED], b"", []),
    ("moo copy, a world", ["copy", SMALL], b"", []),
    ("moo copy, the starter's seed", ["copy", SEED], b"", []),
    ("moo check, the starter world", ["check", STARTER], b"", []),
    ("moo copy, the starter world", ["copy", STARTER], b"", []),
    ("moo script, a checkpoint", ["script", SMALL], SAVED, faults(5)),
    ("moo script, three lives", ["script", SMALL], LIVES, faults(14)),
    ("moo script, typed", ["script", SMALL], TYPED, faults(6)),
    ("moo script, lists that grow", ["script", SMALL], GROWN, []),
    ("moo script, a damaged world", ["script", DAMAGED], SAVED, []),
    ("moo, nothing asked", ["nothing"], b"", []),
]
