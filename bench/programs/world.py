"""Makes the database of a world from the texts of programs.

#0 has a property for each object that has a name. #1, $player in these texts, is a wizard. His command `run NAME TURNS` runs a program and prints
`NAME = ANSWER`; `warm NAME` runs it by one turn and prints `ready`. The objects $core_1 to $core_6 are a chain of six ancestors with the verbs of
bench/verbs/names.txt, a line each, all of which return their first argument. $programs has a verb for each program, named after it, and `empty`.
What follows are the objects that the texts make:

    @turns COUNT WORDS              how many turns are measured, and what is in a turn
    @create PARENT named NAME       an object $NAME, whose own name is NAME too; PARENT is #-1 or $NAME
    @rename $NAME to TEXT           its own name
    @property $NAME.PROPERTY VALUE  a property that it defines
    @set $NAME.PROPERTY to VALUE    the value of one that it inherits
    @move $NAME to $PLACE
    @program $NAME:NAMES            a verb; the lines up to a line `.` are its program
    @program run                    the program itself: its argument is the number of turns

An empty line is passed over."""

import re
from pathlib import Path

HERE = Path(__file__).resolve().parent
NAMES = HERE.parent / "verbs/names.txt"

PLAYER, READABLE, FERTILE = 7, 16, 128
# The permissions rxd of a verb with the arguments `this none this`, and with `any none none`.
METHOD, COMMAND = 173, 29

RUN = ['notify(player, tostr(args[1], " = ", $programs:(args[1])(toint(args[2]))));']
WARM = ["$programs:(args[1])(1);", 'notify(player, "ready");']


class Thing:
    """An object of the world. Links are its parent's and its place's numbers, or -1."""

    def __init__(self, number, name, parent):
        self.number, self.name, self.parent = number, name, parent
        self.flags, self.place = READABLE | FERTILE, -1
        self.children, self.contents = [], []
        self.verbs, self.defined, self.values = [], [], {}


class World:
    def __init__(self):
        self.things, self.named = [], {}
        self.system = self.make("system", -1)
        self.wizard = self.make("wizard", -1)
        self.wizard.flags = PLAYER
        self.named["player"] = self.wizard
        self.system.verbs.append(("do_login_command", METHOD, ["return #1;"]))
        self.wizard.verbs += [("run", COMMAND, RUN), ("warm", COMMAND, WARM)]
        above = -1
        for level, line in enumerate(NAMES.read_text().split("\n")[:6], 1):
            above = self.create(f"core_{level}", above).number
            self.things[above].verbs += [(name, METHOD, ["return args[1];"]) for name in line.split()]
        self.programs = self.create("programs", -1)
        self.programs.verbs.append(("empty", METHOD, ["return 0;"]))

    def make(self, name, parent):
        thing = Thing(len(self.things), name, parent)
        self.things.append(thing)
        if parent >= 0:
            self.things[parent].children.append(thing.number)
        return thing

    def create(self, name, parent):
        if name in self.named:
            raise ValueError(f"there is a ${name} already")
        thing = self.named[name] = self.make(name, parent)
        self.define(self.system, name, (1, thing.number))
        return thing

    def define(self, thing, name, value):
        thing.defined.append(name)
        thing.values[name] = value

    def object_of(self, word):
        return self.named[word[1:]]

    def value_of(self, text):
        value, rest = self.value_and_rest(text.strip())
        if rest.strip():
            raise ValueError(f"no value: {text}")
        return value

    def value_and_rest(self, text):
        """A literal's type and content, and what follows it."""
        if text.startswith("{"):
            items, rest = [], text[1:].lstrip()
            while not rest.startswith("}"):
                item, rest = self.value_and_rest(rest.lstrip(", "))
                items.append(item)
                rest = rest.lstrip()
            return (4, items), rest[1:]
        found = re.match(r'"([^"]*)"|(#?)(-?\d+)|(\$\w+)', text)
        if not found:
            raise ValueError(f"no value: {text}")
        rest = text[found.end():]
        if found[4]:
            return (1, self.object_of(found[4]).number), rest
        if found[3] is not None:
            return (1 if found[2] else 0, int(found[3])), rest
        return (2, found[1]), rest

    def read(self, name, text):
        """Takes the text of a program into the world."""
        lines = iter(text.split("\n"))
        for line in lines:
            if line.startswith("@program "):
                source = []
                for part in lines:
                    if part == ".":
                        break
                    source.append(part)
                self.add_verb(name, line[len("@program "):], source)
            elif line and not line.startswith("@turns "):
                self.obey(line)

    def add_verb(self, program, words, source):
        if words == "run":
            self.programs.verbs.append((program, METHOD, source))
        else:
            on, names = words.split(":", 1)
            self.object_of(on).verbs.append((names, METHOD, source))

    def obey(self, line):
        if found := re.fullmatch(r"@create (#-1|\$\w+) named (\w+)", line):
            self.create(found[2], -1 if found[1] == "#-1" else self.object_of(found[1]).number)
        elif found := re.fullmatch(r"@rename (\$\w+) to (.+)", line):
            self.object_of(found[1]).name = found[2]
        elif found := re.fullmatch(r"@property (\$\w+)\.(\w+) (.+)", line):
            self.define(self.object_of(found[1]), found[2], self.value_of(found[3]))
        elif found := re.fullmatch(r"@set (\$\w+)\.(\w+) to (.+)", line):
            self.object_of(found[1]).values[found[2]] = self.value_of(found[3])
        elif found := re.fullmatch(r"@move (\$\w+) to (\$\w+)", line):
            thing, place = self.object_of(found[1]), self.object_of(found[2])
            thing.place = place.number
            place.contents.append(thing.number)
        else:
            raise ValueError(f"no such line: {line}")

    def database(self):
        """The lines of the database."""
        verbs = [(thing.number, place, verb[2]) for thing in self.things for place, verb in enumerate(thing.verbs)]
        lines = ["** LambdaMOO Database, Format Version 4 **", len(self.things), len(verbs), 0, 1, 1]
        for thing in self.things:
            lines += self.object_lines(thing)
        for number, place, source in verbs:
            lines += [f"#{number}:{place}", *source, "."]
        return [*lines, "0 clocks", "0 queued tasks", "0 suspended tasks", "0 active connections with listeners"]

    def object_lines(self, thing):
        above = [self.things[number] for number in self.line_above(thing)]
        names = [name for one in above for name in one.defined]
        lost = set(thing.values) - set(names)
        if lost:
            raise ValueError(f"#{thing.number} has no property {lost.pop()}")
        links = [thing.place, first(thing.contents), self.next(thing, "place", "contents"), thing.parent, first(thing.children), self.next(thing, "parent", "children")]
        lines = [f"#{thing.number}", thing.name, "", thing.flags, 1, *links, len(thing.verbs)]
        for names_of_verb, permissions, _ in thing.verbs:
            lines += [names_of_verb, 1, permissions, -1]
        lines += [len(thing.defined), *thing.defined, len(names)]
        for name in names:
            lines += [*(value_lines(thing.values[name]) if name in thing.values else [5]), 1, 5]
        return lines

    def line_above(self, thing):
        number = thing.number
        while number >= 0:
            yield number
            number = self.things[number].parent

    def next(self, thing, link, row):
        """The object after this one in the row of those that its parent or its place has."""
        at = getattr(thing, link)
        if at < 0:
            return -1
        others = getattr(self.things[at], row)
        place = others.index(thing.number) + 1
        return others[place] if place < len(others) else -1


def first(numbers):
    return numbers[0] if numbers else -1


def value_lines(value):
    kind, content = value
    if kind != 4:
        return [kind, content]
    return [4, len(content), *(line for item in content for line in value_lines(item))]


def turns_of(text):
    """How many turns of a program are measured, and what is in a turn."""
    found = re.match(r"@turns (\d+) (.+)\n", text)
    if not found:
        raise ValueError("the first line isn't @turns COUNT WORDS")
    return int(found[1]), found[2]


def database_of(texts):
    """The text of the database with these programs, by name."""
    world = World()
    for name, text in texts.items():
        try:
            world.read(name, text)
        except (ValueError, KeyError) as fault:
            raise SystemExit(f"{name}.moo: {fault}") from fault
    return "".join(f"{line}\n" for line in world.database())
