"""The ends of a list of events: the server's own end, and a crash that leaves each of the texts that it may leave."""

from play import QUESTION, Model

# What follows a stop: the main text, and the world that was read from it, after its start.
LOOK = ["show", "open 1", QUESTION]


def images(lines):
    """Returns the numbers of the texts that a crash may leave after these lines."""
    return range(len(Model(lines).disk.images))


def stops(lines):
    """Returns the lists of lines that end a life: by the server alone, and by a crash with each text."""
    return ["reopen"] + [f"crash {number}" for number in images(lines)]


def ended(lines):
    """Returns the scripts with one or two stops after the lines, and those that ask for a text that there isn't."""
    for stop in stops(lines) + [f"crash {len(images(lines))}"]:
        yield lines + [stop] + LOOK
    for number in range(len(images(lines)) + 1):
        yield lines + ["reopen", f"crash {number}"] + LOOK


def calls(lines):
    """Returns how many calls of the disk the lines and a start after them make."""
    return 1000 - Model(["fail 1000"] + lines + ["reopen"]).disk.calls_left


def faults(number):
    """Returns the lines of a call that fails, without and with its effect."""
    return [f"fail {number}", f"fail {number} done"]
