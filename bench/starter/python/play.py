"""Plays typed lines in the port of the starter world: play.py DATABASE CONNECTED QUIET

The first CONNECTED players of the database are in the landing: the wizard on connection 1, Player1x on connection 2, and so on. Each line of
standard input is `line C TEXT`, as for `moo script`. What the players get is printed as `C: LINE`. The first QUIET lines print nothing.

An empty line comes before the output of each line, so that callgrind counts them apart."""

import gc
import os
import sys

sys.path.insert(0, os.path.dirname(os.path.abspath(__file__)))

import database  # noqa: E402
import task  # noqa: E402
import texts  # noqa: E402
import world  # noqa: E402
from commands import Command, choose  # noqa: E402

PLAYER, WIZARD = 1, 4
SINGLE = {**world.SINGLE, "string": texts.strings, "match": texts.matching, "time": texts.clock}


class Loader:
    """Makes classes and instances of the rows of a database."""

    def __init__(self, path):
        self.rows = database.read(path)
        links = {name: value for name, value in self.rows[0].values.items() if isinstance(value, database.Link)}
        self.named = {link.number: name for name, link in links.items()}
        self.above = {row.parent for row in self.rows.values()}
        self.kinds, self.objects = {}, {0: world.system}
        for number, row in self.rows.items():
            self.objects.setdefault(number, self.made(number, row))
        for number, row in self.rows.items():
            self.fill(self.objects[number], number, row)

    def made(self, number, row):
        """Returns a class for an object that has children, and else an instance of its parent's class."""
        if number in self.above:
            return self.kind_of(number)
        single = SINGLE.get(self.named.get(number))
        return self.kind_of(row.parent)() if single is None else single

    def kind_of(self, number):
        if number not in self.kinds:
            ported = world.KINDS.get(self.named.get(number))
            self.kinds[number] = ported or type(f"Kind{number}", (self.kind_of(self.rows[number].parent),), {})
        return self.kinds[number]

    def value_of(self, value):
        if isinstance(value, list):
            return [self.value_of(element) for element in value]
        return self.objects.get(value.number) if isinstance(value, database.Link) else value

    def fill(self, o, number, row):
        """Sets the attributes of an object: what each object has, then the values of its properties."""
        o.name, o.number, o.is_player, o.wizard = row.name, number, bool(row.flags & PLAYER), bool(row.flags & WIZARD)
        o.location, o.owner = self.objects.get(row.location), self.objects.get(row.owner)
        o.contents = [self.objects[inside] for inside in row.contents]
        if o.is_player:
            o.output = []
        for name, value in row.values.items():
            if callable(getattr(o, name, None)):
                raise SystemExit(f"#{number} has a property and a verb of the name {name}")
            setattr(o, name, self.value_of(value))


def connect(objects, count):
    """Puts the first players into the landing, and returns them by their connections."""
    people = {o.name: o for o in objects.values() if isinstance(o, world.Player)}
    found = dict(enumerate([people["Wizard"], *(people[f"Player{number}x"] for number in range(1, count))], 1))
    for who in found.values():
        if who.location is not None:
            who.location.contents.remove(who)
        who.location = world.landing
        who.location.contents.append(who)
        who.connected_at = who.heard_at = task.now
    task.connected[:] = found.values()
    return found


def run(who, line):
    """Runs a typed line."""
    task.player = who
    who.heard_at = task.now
    if world.system.do_command(line):
        return
    command = Command(who, line)
    chosen = choose(command)
    if chosen is None:
        who.location.huh(command)
    else:
        o, method = chosen
        method(o, command)


def main():
    path, count, quiet = sys.argv[1], int(sys.argv[2]), int(sys.argv[3])
    players = connect(Loader(path).objects, count)
    for number, line in enumerate(sys.stdin):
        if number == quiet:
            gc.collect()
            gc.freeze()
        _, connection, text = line.rstrip("\n").split(" ", 2)
        run(players[int(connection)], text)
        if number >= quiet:
            os.write(1, b"\n")
            printed = [f"{place}: {heard}\n" for place, who in players.items() for heard in who.output]
        for who in players.values():
            who.output.clear()
        if number >= quiet:
            os.write(1, "".join(printed).encode())


main()
