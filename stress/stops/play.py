"""A script of events, played by the program and by the model."""

import os
import subprocess
from concurrent.futures import ThreadPoolExecutor

from disk import Disk
from server import Life, Server, pieces
from world import SMALL, World

PROGRAM = os.environ["MOO"]
QUESTION = "line 1 ;return {#1.name, #2.name, #0.marks, #0.gone};"


class Model:
    """What a script prints, logs and ends with, and from which worlds its lives begin."""

    def __init__(self, lines):
        first = World()
        self.disk = Disk(first.text())
        self.worlds = {first.text(): first}
        self.printed = []
        self.logged = []
        self.status = 0
        self.begun = {"a start": 0, "the mark of the last report done": 0, "another mark": 0}
        self.life = Life(first, [])
        self.server = Server(self.disk, first, self.life)
        for line in lines:
            self.play(line)
            if self.status:
                return

    def play(self, line):
        word, *rest = line.split(" ")
        if word == "fail":
            self.disk.fail(int(rest[0]), rest[1:] == ["done"])
        elif word == "show":
            self.printed.append(self.disk.main.removesuffix("\n"))
        elif word == "reopen":
            self.begin(self.life.kept())
        elif word == "crash":
            self.crash(int(rest[0]))
        else:
            self.take(line)

    def take(self, line):
        self.server.take(line)
        for world in self.life.marks[-1:]:
            self.worlds[world.text()] = world
        self.printed += self.server.printed
        self.logged += self.server.logged
        self.server.printed, self.server.logged = [], []

    def crash(self, number):
        """Leaves the disk as one of the texts: of this life alone, if it began after a crash or is the first."""
        if number >= len(self.disk.images):
            self.refuse("refused: NoSuchImage", 5)
            return
        self.disk = Disk(self.disk.images[number])
        self.begin([])

    def begin(self, kept_before):
        """Begins a life, from a world that the one before keeps and no other."""
        for _ in range(pieces(len(self.disk.main)) + 1):
            if not self.disk.call("read_main"):
                self.refuse("refused: Device", 3)
                return
        self.count(self.life)
        self.life = Life(self.worlds[self.disk.main], kept_before)
        self.server = Server(self.disk, self.life.begin, self.life)

    def count(self, before):
        kept = [world.text() for world in before.kept()]
        if self.disk.main not in kept:
            raise AssertionError("a life begins from a world that the one before doesn't keep:\n" + self.disk.main)
        if before.done:
            kind = "another mark" if kept.index(self.disk.main) else "the mark of the last report done"
        else:
            marks = [world.text() for world in before.marks]
            kind = "another mark" if self.disk.main in marks else "a start"
        self.begun[kind] += 1

    def refuse(self, line, status):
        self.printed.append(line)
        self.status = status


class Counts:
    """How many scripts were played, how they ended, and from which worlds lives began in them."""

    def __init__(self):
        self.ended = {0: 0, 3: 0, 5: 0}
        self.begun = {}

    def play(self, scripts):
        """Plays scripts both ways, and ends the program at the first one in which they differ."""
        with ThreadPoolExecutor(4) as pool:
            for model in pool.map(compared, scripts):
                self.ended[model.status] += 1
                for kind, number in model.begun.items():
                    self.begun[kind] = self.begun.get(kind, 0) + number

    def tell(self, what):
        begun = ", ".join(f"{number} from {kind}" for kind, number in self.begun.items())
        ended = f"{self.ended[3]} refused by the device, {self.ended[5]} since there is no such image"
        print(f"{what}: {sum(self.ended.values())} scripts, {ended}; lives began: {begun}", flush=True)


def compared(lines):
    """Returns the model of a script, if the program prints, logs and ends as the model says."""
    model = Model(lines)
    script = "".join(line + "\n" for line in lines)
    run = subprocess.run([PROGRAM, "script", str(SMALL)], input=script.encode(), capture_output=True)
    wanted = ("".join(line + "\n" for line in model.printed), "".join(line + "\n" for line in model.logged), model.status)
    given = (run.stdout.decode(), run.stderr.decode(), run.returncode)
    if given != wanted:
        raise SystemExit(f"they differ\nscript:\n{script}\nwanted: {wanted}\ngiven: {given}")
    return model
