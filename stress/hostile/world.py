"""Databases for hostile programs, as texts in Format Version 4.

Number 3 is a wizard, 4 a programmer, 5 a player without a flag; a connection logs in by typing such a number as #4.
`eval TEXT` runs a program with the rights of who types it. The objects from 6 on belong to the programmer.
"""

LOGIN = "if (args)\nreturn toobj(args[1]);\nendif"
EVAL = "notify(player, toliteral(eval(argstr)));"
PLAYER, PROGRAMMER, WIZARD, READ, FERTILE = 1, 2, 4, 16, 128


class Thing:
    """An object: its parent, its place, its verbs and properties. A verb is a tuple of names, owner, permissions,
    preposition and program; a property one of a name and the lines of a value."""

    def __init__(self, name, flags=READ, owner=3, parent=-1, location=-1):
        self.name, self.flags, self.owner, self.parent, self.location = name, flags, owner, parent, location
        self.verbs, self.properties = [], []


def verb(names, program, owner, permissions="rxd", command=False):
    number = sum(1 << "rwxd".index(letter) for letter in permissions)
    # A command takes any objects and any preposition; verbs that programs call are `this none this`.
    number += (16 + 64) if command else (32 + 128)
    return (names, owner, number, -2 if command else -1, program)


def small():
    """Returns the smallest world: the system object, a root, a room, and those who log in."""
    system, root = Thing("System Object", READ, 3, 1), Thing("Root", READ | FERTILE, 3)
    room = Thing("Room", READ, 4, 1)
    wizard = Thing("Wizard", PLAYER | PROGRAMMER | WIZARD, 3, 1, 2)
    programmer = Thing("Mallory", PLAYER | PROGRAMMER, 4, 1, 2)
    player = Thing("Ann", PLAYER, 5, 1, 2)
    system.verbs.append(verb("do_login_command", LOGIN, 3))
    for who, number in ((wizard, 3), (programmer, 4)):
        who.verbs.append(verb("eval", EVAL, number, command=True))
    return [system, root, room, wizard, programmer, player]


def text(things):
    """Returns the database of these objects, numbered in their order."""
    children, contents = linked([t.parent for t in things]), linked([t.location for t in things])
    players = [n for n, t in enumerate(things) if t.flags & PLAYER]
    programs = [(o, v, each[4]) for o, t in enumerate(things) for v, each in enumerate(t.verbs) if each[4] is not None]
    lines = ["** LambdaMOO Database, Format Version 4 **", len(things), len(programs), 0, len(players), *players]
    for number, thing in enumerate(things):
        lines += [f"#{number}", thing.name, "", thing.flags, thing.owner, thing.location, contents[0][number],
                  contents[1][number], thing.parent, children[0][number], children[1][number]]
        lines.append(len(thing.verbs))
        for each in thing.verbs:
            lines += each[:4]
        lines += [len(thing.properties), *(name for name, _ in thing.properties)]
        lines += values(things, number)
    for o, v, program in programs:
        lines += [f"#{o}:{v}", *([program] if program else []), "."]
    lines += ["0 clocks", "0 queued tasks", "0 suspended tasks", "0 active connections with listeners"]
    return "\n".join(map(str, lines)) + "\n"


def values(things, number):
    """Returns the lines of the property values of an object: its own, and a clear one for each that it inherits."""
    lines, count, owner = [], 0, things[number].owner
    for _, value in things[number].properties:
        lines += [*value, owner, 7]
        count += 1
    above = things[number].parent
    while above != -1:
        for _ in things[above].properties:
            lines += [5, owner, 7]
            count += 1
        above = things[above].parent
    return [count, *lines]


def linked(aboves):
    """Returns for each object its first child and its next sibling."""
    first, after, last = [-1] * len(aboves), [-1] * len(aboves), {}
    for number, above in enumerate(aboves):
        if above == -1:
            continue
        if above in last:
            after[last[above]] = number
        else:
            first[above] = number
        last[above] = number
    return first, after
