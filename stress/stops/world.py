"""The small world: what its database text says of it, and nothing else."""

from pathlib import Path

SMALL = Path(__file__).with_name("small.db")


class World:
    """The names of #1 and #2, how many marks and how many disconnections #0 has counted, and who is connected."""

    def __init__(self, root="Root Class", room="The First Room", marks=0, gone=0, connected=()):
        self.root = root
        self.room = room
        self.marks = marks
        self.gone = gone
        self.connected = connected

    def text(self):
        """Returns the database text of the world."""
        front, rest = FIRST.split("marks\ngone\n2\n0\n0\n3\n5\n0\n0\n3\n5\n#1\nRoot Class\n")
        middle, end = rest.split("#2\nThe First Room\n")
        programs, _ = end.split("0 active connections with listeners\n")
        return (
            f"{front}marks\ngone\n2\n0\n{self.marks}\n3\n5\n0\n{self.gone}\n3\n5\n#1\n{self.root}\n"
            f"{middle}#2\n{self.room}\n"
            f"{programs}{len(self.connected)} active connections with listeners\n"
            + "".join(f"{who} 0\n" for who in self.connected)
        )

    def told(self):
        """Returns what the world answers to the question."""
        return f'{{1, {{"{self.root}", "{self.room}", {self.marks}, {self.gone}}}}}'

    def copy(self):
        return World(self.root, self.room, self.marks, self.gone, self.connected)


FIRST = SMALL.read_text()
