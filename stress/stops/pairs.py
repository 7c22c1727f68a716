"""Three checkpoints: a call of the first and one of the next fail, the third is done, with stops after each event."""

from play import Counts
from stops import ended, faults


def checkpoint(name, turns):
    """Returns a checkpoint with this many turns, and another change after its first turn."""
    return [f'line 1 ;#1.name = "{name}"; dump_database();', "flush", f'line 1 ;#2.name = "{name}";'] + ["flush"] * (turns - 1)


def pairs():
    """Yields each two of the five calls, each without and with its effect. A fault is planned after the report of the one before."""
    for first in range(1, 6):
        for second in range(1, 6):
            for one in faults(first):
                for other in faults(second):
                    yield first + 3, (
                        ["open 1", one]
                        + checkpoint("A", first)
                        + [other]
                        + checkpoint("B", second)
                        + checkpoint("C", 5)
                        + ['line 1 ;#1.name = "D";']
                    )


def scripts():
    """Yields the scripts with stops after each event from the turn on that fails first."""
    for failed, events in pairs():
        for place in range(failed, len(events) + 1):
            yield from ended(events[:place])


counts = Counts()
counts.play(scripts())
counts.tell("two faults, in a checkpoint and in the next, and stops after each event from the first on")
