"""Two checkpoints: each call of the disk fails, with stops after each event."""

from play import Counts
from stops import calls, ended, faults

# The second checkpoint is asked for while the first is open, and begins in the turn in which the first one ends.
TWO = [
    "open 1",
    'line 1 ;#1.name = "A"; dump_database();',
    "flush",
    'line 1 ;#2.name = "X";',
    "flush",
    "line 1 ;dump_database();",
    "flush",
    "flush",
    'line 1 ;#1.name = "B";',
    "flush",
    "flush",
    "hangup 1",
    "flush",
    "flush",
    "open 1",
    "flush",
    "flush",
    'line 1 ;#2.name = "Y";',
]


def without_fault():
    for place in range(len(TWO) + 1):
        yield from ended(TWO[:place])


def with_a_fault():
    for place in range(len(TWO) + 1):
        for number in range(1, calls(TWO) + 2):
            for fault in faults(number):
                yield from ended(TWO[:place] + [fault] + TWO[place:])


def with_a_fault_and_a_stop():
    for number in range(1, calls(TWO) + 1):
        for fault in faults(number):
            for place in range(len(TWO)):
                yield from ended([fault] + TWO[:place])


def play(what, scripts):
    counts = Counts()
    counts.play(scripts)
    counts.tell(what)


play("two checkpoints, stops after each event", without_fault())
play("each call fails, planned first or after each event, and stops after the last one", with_a_fault())
play("each call fails, and stops after each event", with_a_fault_and_a_stop())
