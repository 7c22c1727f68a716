#!/usr/bin/env python3
"""Writes a database to be served: world.py [PLAYERS [MEGABYTES]].

Whoever types a number first is connected as that player. 3 is the wizard, whose lines after a semicolon are run. PLAYERS players, from 4 on, get
one line as the answer to each line. An object holds MEGABYTES megabytes of strings. The name of #2 goes to the log as a checkpoint begins."""
import sys

players = int(sys.argv[1]) if len(sys.argv) > 1 else 10
megabytes = int(sys.argv[2]) if len(sys.argv) > 2 else 0
out = ["** LambdaMOO Database, Format Version 4 **", str(5 + players), "3", "0", str(1 + players), "3"]
out += [str(4 + k) for k in range(players)]


def thing(number, name, flags, verbs=(), values=()):
    out.extend([f"#{number}", name, "", str(flags), "3"] + ["-1"] * 6 + [str(len(verbs))])
    for verb in verbs:
        out.extend(verb)
    out.append(str(len(values)))
    out.extend(f"p{k}" for k in range(len(values)))
    out.append(str(len(values)))
    for value in values:
        out.extend(["2", value, "3", "0"])


hook = lambda name: (name, "3", "173", "-1")
thing(0, "System Object", 16, [hook("do_login_command"), hook("checkpoint_started")])
thing(1, "Root Class", 16)
thing(2, "0", 0)
thing(3, "Wizard", 7, [("eval", "3", "93", "-2")])
for k in range(players):
    thing(4 + k, f"Player {k}", 1)
thing(4 + players, "Store", 0, values=["x" * 999_000 for _ in range(megabytes)])
out += ["#0:0", "return args ? toobj(args[1]) | #-1;", "."]
out += ["#0:1", 'server_log("mark " + #2.name);', "."]
out += ["#3:0", "notify(player, toliteral(eval(argstr)));", "."]
out += ["0 clocks", "0 queued tasks", "0 suspended tasks", "0 active connections with listeners"]
print("\n".join(out))
