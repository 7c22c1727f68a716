"""Plays programs in Python, as `moo script` does in MOO: each line of standard input is the name of a program, its file, its turns and how often
these are run. A program is warmed up by ten runs of one turn. A line is written before it is run, and its answer after that."""

import gc
import os
import sys

sys.path.insert(0, os.path.dirname(os.path.abspath(__file__)))

for line in sys.stdin:
    name, file, turns, times = line.split()
    space = {"__name__": name}
    with open(file) as source:
        exec(compile(source.read(), file, "exec"), space)
    run = space["run"]
    for _ in range(10):
        run(1)
    gc.collect()
    gc.freeze()
    answer = None
    os.write(1, b"ready\n")
    for _ in range(int(times)):
        answer = run(int(turns))
    os.write(1, f"{name} = {answer}\n".encode())
