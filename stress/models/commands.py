"""A model of commands, as docs/reference/commands.md says: words, prepositions, objects and the choice of a verb. And random lines of the player #3
in the room #2, with the objects #4 to #8 and their kind #9."""

import re

from values import Obj, folded, literal
from world import fits

PREPOSITIONS = [
    ["with", "using"], ["at", "to"], ["in front of"], ["in", "inside", "into"], ["on top of", "on", "onto", "upon"], ["out of", "from inside", "from"],
    ["over"], ["through"], ["under", "underneath", "beneath"], ["behind"], ["beside"], ["for", "about"], ["is"], ["as"], ["off", "off of"],
]  # fmt: skip
FORMS = [(form.split(" "), number) for number, forms in enumerate(PREPOSITIONS) for form in forms]
SIGNS = {'"': "say ", ":": "emote ", ";": "eval "}
NONE, ANY = -1, -2
PLAYER, ROOM, KIND = 3, 2, 9
VALID = range(10)


def split(line):
    """Returns the words of a line, each with the place after it."""
    words, word, is_open, place = [], None, False, 0
    while place < len(line):
        letter = line[place]
        if letter == " " and not is_open:
            words, word = (words if word is None else [*words, (word, place)]), None
        elif letter == '"':
            word, is_open = word or "", not is_open
        else:
            place += letter == "\\"
            word = (word or "") + line[place : place + 1]
        place += 1
    return words if word is None else [*words, (word, place)]


def parsed(line):
    """Returns the verb, `argstr`, `args`, `dobjstr`, the preposition, `prepstr` and `iobjstr` of a line with words."""
    line = line.lstrip(" ")
    line = SIGNS[line[0]] + line[1:] if line[:1] in SIGNS else line
    (verb, end), *more = split(line)
    words, rest = [word for word, _ in more], line[end:].lstrip(" ")
    for place in range(len(words)):
        found = [(len(form), number) for form, number in FORMS if [folded(word) for word in words[place : place + len(form)]] == form]
        if found:
            length, number = max(found)
            parts = words[:place], words[place : place + length], words[place + length :]
            return verb, rest, words, " ".join(parts[0]), number, " ".join(parts[1]), " ".join(parts[2])
    return verb, rest, words, " ".join(words), NONE, "", ""


class Place:
    """A player in a room with things. `things` are their names, `near` those of them that are near, `parents` the parents, `verbs` the verbs."""

    def __init__(self, chance):
        names = ["box", "big box", "red ball", "lamp", "boxer", "ball", "a", "in", "la", ""]
        self.chance, self.verbs = chance, []
        self.things = {number: [chance.choice(names) for _ in range(chance.randint(1, 3))] for number in range(4, 9)}
        self.locations = {number: chance.choice([ROOM, ROOM, PLAYER, NONE]) for number in self.things}
        self.parents = {ROOM: 1, PLAYER: 1, **{number: chance.choice([KIND, NONE]) for number in self.things}}

    def made(self):
        """Returns the programs that make the things and the verbs."""
        for number, (name, *aliases) in self.things.items():
            yield (f'o = create(#-1); o.name = {literal(name)}; add_property(o, "aliases", {literal(aliases)}, {{#3, ""}}); '
                   f"move(o, #{self.locations[number]});")  # fmt: skip
        yield "create(#-1);" + "".join(f"chparent(#{number}, #{KIND});" for number in self.things if self.parents[number] == KIND)
        count = self.chance.randint(15, 30)
        for number in range(count):
            yield self.random_verb(number)
        if self.chance.random() < 0.7:
            yield self.verb(count, self.chance.choice([PLAYER, ROOM]), "*", "any", ANY, "any", "rd")

    def random_verb(self, number):
        on = self.chance.choice([PLAYER, ROOM, 4, 5, 6, 7, KIND, KIND])
        names = self.chance.choice(["l*ook", "get", "get t*ake", "put", "*", "p*", "say", "emote", "take"] if on != PLAYER else ["l*ook", "put", "get", "say"])
        one, other = (self.chance.choice(["none", "any", "any", "this"]) for _ in "12")
        preposition = self.chance.choice([ANY, ANY, NONE, NONE, self.chance.randrange(len(PREPOSITIONS))])
        return self.verb(number, on, names, one, preposition, other, self.chance.choice(["rxd", "rd"]))

    def verb(self, number, on, names, one, preposition, other, permissions):
        """Returns the program that makes a verb, which shows its number and what it has."""
        self.verbs.append((on, names, one, preposition, other, number, "x" in permissions))
        form = {ANY: "any", NONE: "none"}.get(preposition) or self.chance.choice(PREPOSITIONS[preposition])
        source = f"notify(player, toliteral({{{number}, verb, argstr, args, dobjstr, dobj, prepstr, iobjstr, iobj, this, caller, player}}));"
        return (f"o = #{on}; add_verb(o, {{#3, {literal(permissions)}, {literal(names)}}}, {literal([one, form, other])}); "
                f"set_verb_code(o, length(verbs(o)), {{{literal(source)}}});")  # fmt: skip

    def matched(self, text):
        """Returns the object that a text names."""
        found = re.fullmatch(r"#(-?\d+)", text)
        if text == "" or found:
            return NONE if text == "" else int(found[1]) if int(found[1]) in VALID else -3
        if folded(text) in ("me", "here"):
            return PLAYER if folded(text) == "me" else ROOM
        near = {PLAYER: ["Wizard"], **{number: names for number, names in self.things.items() if self.locations[number] != NONE}}
        for agrees in (str.__eq__, str.startswith):
            those = [number for number, names in near.items() if any(agrees(folded(name), folded(text)) for name in names)]
            if those:
                return those[0] if len(those) == 1 else -2
        return -3

    def verbs_of(self, number):
        """Returns the verbs of an object and of its ancestors, the nearest first."""
        while number != NONE:
            yield from (verb for verb in self.verbs if verb[0] == number)
            number = self.parents.get(number, NONE)

    def chosen(self, word, direct, preposition, indirect):
        """Returns `this` and the number of the verb that a command runs, or None."""
        for this in (PLAYER, ROOM, direct, indirect):
            for _, names, one, its, other, number, _ in self.verbs_of(this) if this >= 0 else []:
                agree = all(spec == "any" or thing == (NONE if spec == "none" else this) for spec, thing in ((one, direct), (other, indirect)))
                if fits(names, word) and agree and its in (ANY, preposition):
                    return this, number
        return next(((ROOM, number) for _, names, _, _, _, number, callable_ in self.verbs_of(ROOM) if callable_ and fits(names, "huh")), None)

    def printed(self, line):
        """Returns what a line with words prints."""
        word, rest, words, direct, preposition, its, indirect = parsed(line)
        one, other = self.matched(direct), self.matched(indirect)
        found = self.chosen(word, one, preposition, other)
        if found is None:
            return "I couldn't understand that."
        this, number = found
        return literal([number, word, rest, words, direct, Obj(one), its, indirect, Obj(other), Obj(this), Obj(PLAYER), Obj(PLAYER)])


FIRST = ["look", "l", "lo", "get", "take", "t", "put", "p", "say", "foo", '"', ":", ";", "  look", "loo", '"put"']
WORDS = [
    "box", "big", "red", "Box", "boxer", "lamp", "in", "on", "with", "to", "from", "of", "front", "top", "out", "inside", "off", "me", "here", "#4", "#5",
    "#99", "#-1", "#-0", '""', '"big box"', '"in front"', "a", "b", "la", "is", "as", "at", "IN", '"', '\\"x', "ball", '"red ball"', "re", "#", "x\\ y",
    "over", "through", "beside", "under", "\\", "on top of", "in front of", "from inside", "out of", "off of",
]  # fmt: skip


def typed(chance):
    """Returns a random line with words."""
    return chance.choice(FIRST) + "".join(" " * chance.choice([1, 1, 1, 3]) + chance.choice(WORDS) for _ in range(chance.randint(0, 6)))


def session(chance, count):
    """Returns the programs that a wizard types over tests/databases/larger.db, and lines, each with what it prints."""
    place = Place(chance)
    made = [*place.made(), 'delete_verb(#3, "eval");']
    lines = [typed(chance) for _ in range(count)]
    return made, [(line, place.printed(line)) for line in lines]
