"""Texts of whole pieces and of one byte more: each has its report in the turn that is due, whichever call fails before."""

from play import Counts
from stops import ended, faults
from server import PIECE
from world import World

# What the text has without the name of #1, at the first mark, with one player.
BARE = len(World(root="", marks=1, connected=(3,)).text())
SIZES = [PIECE - 1, PIECE, PIECE + 1, 2 * PIECE, 2 * PIECE + 1]


def checkpoint(size, turns):
    """Returns a checkpoint with a text of this many bytes, and this many turns."""
    long = f's = "a"; for i in [1..17] s = s + s; endfor #1.name = s[1..{size - BARE}]; dump_database();'
    return ["open 1", "line 1 ;" + long] + ["flush"] * turns


def turns(size):
    """Returns the turn of the report: the fifth for a text of one piece."""
    return 4 + -(-size // PIECE)


def scripts(size):
    for number in range(turns(size) + 2):
        yield from ended(checkpoint(size, number))
    for number in range(1, turns(size) + 1):
        for fault in faults(number):
            yield from ended([fault] + checkpoint(size, turns(size)))


for size in SIZES:
    counts = Counts()
    counts.play(scripts(size))
    counts.tell(f"a text of {size} bytes, with its report in turn {turns(size)}")
