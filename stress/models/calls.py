"""Random calls of four programmers on a world, next to the model in `world.py`."""

from values import ERRORS, Obj, Raised, literal
from world import NOBODY, WIZARD, World


def result(call, *given):
    """Returns the literal of what a call gives or raises."""
    try:
        return literal(call(*given))
    except Raised as error:
        return literal(error.code)


# A world has about as many objects.
MOST = 14

NAMES = ["a", "B", "cc", "Ab", "d", "name", "R", ""]
PATTERNS = ["foo", "f*oo bar", "b*", "*", "x", "get t*ake", "foo*x", " ", ""]
ASKED = ["foo", "f", "fo", "bar", "b", "bx", "", "x", "t", "tak", "foox", "zzz", 0, 1, 2, 3]


class Calls:
    """Makes calls on a world by a random number generator."""

    def __init__(self, chance, world):
        self.chance, self.world = chance, world

    def pick(self, *values):
        return self.chance.choice(values)

    def thing(self):
        return Obj(self.pick(*[*self.world.things] * 3, NOBODY, 999))

    def owner(self):
        return Obj(self.pick(3, 4, 5, 6, NOBODY, 77))

    def letters(self, known):
        return "".join(self.pick(*known) for _ in range(self.chance.randint(0, 3))) if self.chance.random() < 0.95 else "z"

    def giver(self, programmer):
        return Obj(programmer) if self.chance.random() < 0.7 else self.owner()

    def arguments(self, name, programmer):
        """Returns random arguments of a call."""
        thing, known = self.thing(), self.pick(*NAMES)
        if name == "create":
            return [self.pick(self.thing(), Obj(NOBODY)), *self.pick([], [], [self.owner()])]
        if name in ("chparent", "move"):
            return [thing, self.thing()]
        more = {
            "add_property": lambda: [known, self.chance.randint(0, 99), [self.giver(programmer), self.letters("rwc")]],
            "set_property_info": lambda: [known, [self.owner(), self.letters("rwc"), *self.pick([], [], [self.pick(*NAMES)])]],
            "get": lambda: [self.pick(known, known, "owner", "location", "contents", "w", "f")],
            "set": lambda: self.pick([known, self.pick(5, 7, "q")], ["owner", self.owner()], [self.pick("r", "w", "f"), self.pick(0, 1)], ["location", 1]),
            "add_verb": lambda: [[self.giver(programmer), self.letters("rwxd"), self.pick(*PATTERNS)], ["none", "none", "none"]],
            "set_verb_info": lambda: [self.pick(*ASKED), [self.owner(), self.letters("rwxd"), self.pick(*PATTERNS)]],
            "set_player_flag": lambda: [self.pick(0, 1)],
        }
        for call in ("delete_property", "property_info", "clear_property", "is_clear_property"):
            more[call] = lambda: [known]
        for call in ("delete_verb", "verb_info"):
            more[call] = lambda: [self.pick(*ASKED)]
        return [thing, *more.get(name, list)()]

    def call(self):
        """Makes a call. Returns the program that a wizard types for it, and what that gives."""
        seldom = ["recycle", "properties", "verbs", "parent", "children", "is_player", "set_player_flag", "clear_property", "delete_verb"]
        often = ["create", "chparent", "move", "add_property", "set_property_info", "get", "set", "set", "add_verb", "set_verb_info", "verb_info",
                 "property_info", "is_clear_property", "delete_property"]  # fmt: skip
        name, programmer = self.pick(*often, *often, *seldom), self.pick(3, 3, 4, 5, 6)
        name = "move" if name == "create" and len(self.world.things) > MOST else name
        given = self.arguments(name, programmer)
        numbers = [value.number if type(value) is Obj and (place == 0 or name in ("create", "chparent", "move")) else value
                   for place, value in enumerate(given)]  # fmt: skip
        wanted = result(getattr(self.world, name), programmer, *numbers)
        shown = [*map(literal, given)]
        forms = {"get": "{0}.({1})", "set": "{0}.({1}) = {2}"}
        text = forms[name].format(*shown) if name in forms else f"{name}({', '.join(shown)})"
        return f"set_task_perms(#{programmer}); return `{text} ! ANY';", wanted


def shown(world, number):
    """Returns a program that prints all of an object, and what it gives."""
    names = ["a", "b", "cc", "ab", "d", "r", ""]
    text = (f"o = #{number}; r = {{o.name, o.owner, o.location, o.contents, parent(o), children(o), o.r, o.w, o.f, is_player(o), properties(o)}}; "
            "for v in [1..length(verbs(o))] r = {@r, verb_info(o, v)}; endfor "
            f"for n in ({literal(names)}) r = {{@r, `{{property_info(o, n), is_clear_property(o, n), o.(n)}} ! ANY'}}; endfor return r;")  # fmt: skip
    thing = world.things[number]
    own = [thing.name, Obj(thing.owner), Obj(thing.location), [*map(Obj, thing.contents)], Obj(thing.parent), [*map(Obj, thing.children)]]
    own += [thing.flags[flag] for flag in "rwf"] + [int(number in world.players), world.properties(WIZARD, number)]
    own += [[Obj(owner), permissions, names] for owner, permissions, names in thing.verbs]
    for name in names:
        try:
            own.append([call(WIZARD, number, name) for call in (world.property_info, world.is_clear_property, world.get)])
        except Raised:
            own.append(ERRORS["E_PROPNF"])
    return text, literal(own)


def session(chance, count):
    """Returns programs that a wizard types over tests/databases/five.db, each with what it gives."""
    world = World()
    typed = [('create(#-1); create(#-1); chparent(#4, #-1); #4.name = "";', "0")]
    calls = Calls(chance, world)
    typed += [calls.call() for _ in range(count)]
    typed += [shown(world, number) for number in sorted(world.things)]
    return [*typed, ("return {max_object(), players()};", literal([Obj(world.highest), [*map(Obj, world.players)]]))]
