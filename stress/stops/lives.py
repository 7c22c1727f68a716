"""Lists of three lives, each ended by its server alone or by a crash with each text that it may leave, after each of its events."""

from play import Counts
from stops import LOOK, stops


def life(name):
    return [
        "open 1",
        f'line 1 ;#1.name = "{name}"; dump_database();',
        "flush",
        f'line 1 ;#2.name = "{name}";',
        "flush",
        "flush",
        "flush",
        "flush",
        f'line 1 ;#1.name = "{name}{name}";',
    ]


def beginnings(events):
    """Returns each beginning of the events, from none of them to all."""
    return [events[:place] for place in range(len(events) + 1)]


def failing(events):
    """Returns all events, with a call that fails at the rename or at the sync of the names, without and with its effect."""
    return [[f"fail {call}"] + events for call in ("4", "4 done", "5", "5 done")] + [events[:7], events]


def lists(lived, names, kinds):
    """Yields the lines of all lists of lives by these names, after the given lines."""
    if not names:
        yield lived
        return
    for events in kinds(life(names[0])):
        for stop in stops(lived + events):
            yield from lists(lived + events + [stop, "show"], names[1:], kinds)


def play(what, scripts):
    counts = Counts()
    counts.play(lines + LOOK for lines in scripts)
    counts.tell(what)


play("all lists of three lives, a stop after each event", lists([], "ABC", beginnings))
play("all lists of three lives, a fault at the rename or after it, or none", lists([], "ABC", failing))
