"""A model of a server of the small world: what its events do, which worlds it marks, and what it reports of them."""

import re

from world import World

PIECE = 65_536
RENAMES = re.compile(r'#([12])\.name = (?:"(\w+)"|s\[1\.\.(\d+)\]);')


def pieces(size):
    """Returns the number of pieces of this many bytes."""
    return -(-size // PIECE)


class Life:
    """A server's life as far as saving goes: the world that it began from, its marks, and the last of them reported done."""

    def __init__(self, begin, kept_before):
        self.begin = begin
        self.kept_before = kept_before
        self.marks = []
        self.done = 0

    def kept(self):
        """Returns the worlds that it keeps: from the mark of its last report done on; else those kept before it too, and its beginning."""
        if self.done:
            return self.marks[self.done - 1 :]
        return self.kept_before + [self.begin] + self.marks


class Server:
    """The world as it lives, and the checkpoint that is open. A start reports the saved players as disconnected."""

    def __init__(self, disk, saved, life):
        self.disk = disk
        self.life = life
        self.world = saved.copy()
        self.world.gone += len(saved.connected)
        self.world.connected = ()
        self.is_asked = False
        self.calls = []
        self.printed = []
        self.logged = []

    def take(self, line):
        """Does what an event says, and marks the world if a checkpoint is asked for and none is open."""
        word, _, rest = line.partition(" ")
        getattr(self, "take_" + word)(rest)
        if self.is_asked and not self.calls:
            self.mark()

    def take_open(self, _):
        self.world.connected = (3,)
        self.printed.append("1: *** Connected ***")

    def take_hangup(self, _):
        self.world.connected = ()
        self.world.gone += 1

    def take_line(self, rest):
        """Runs what is typed after a semicolon: names of #1 and #2, a request for a checkpoint, or the question for all that changes."""
        for number, name, length in RENAMES.findall(rest):
            setattr(self.world, {"1": "root", "2": "room"}[number], name or "a" * int(length))
        self.is_asked = self.is_asked or "dump_database()" in rest
        self.printed.append("1: " + (self.world.told() if "return" in rest else "{1, 0}"))

    def mark(self):
        """Counts the mark by the hook; the world as it is then becomes the checkpoint's text."""
        self.world.marks += 1
        self.is_asked = False
        self.life.marks.append(self.world.copy())
        text = self.world.text()
        appends = [("append", text[number * PIECE : (number + 1) * PIECE]) for number in range(pieces(len(text)))]
        self.calls = [("create_spare", "")] + appends + [("sync_spare", ""), ("rename", ""), ("sync_names", "")]

    def take_flush(self, _):
        """Makes one call of an open checkpoint. A report comes after the last one, and after one that fails."""
        if not self.calls:
            return
        is_done = self.disk.call(*self.calls.pop(0))
        if is_done and self.calls:
            return
        self.calls = []
        self.life.done = len(self.life.marks) if is_done else self.life.done
        self.logged.append(f"[INFO  moo] report {int(is_done)}")
