"""A model of objects, properties, verbs and rights, as docs/reference/language.md says.

The programs of all verbs are empty, so each verb that is called returns 0, and nobody has a quota. #3 is a wizard. The other objects are #4 and
those after it."""

from values import Obj, Raised, folded, is_true

FLAGS = ["programmer", "wizard", "r", "w", "f"]
BUILT_IN = ["name", "owner", "location", "contents", *FLAGS]
NOBODY = -1
WIZARD = 3


class Property:
    """What an object defines. Its name may change."""

    def __init__(self, name):
        self.name = name


class Cell:
    """What an object has of a property: its value, or that it is clear, its owner and its permissions."""

    def __init__(self, value, owner, permissions):
        self.value, self.owner, self.permissions, self.is_clear = value, owner, permissions, value is None


class Thing:
    """An object. `cells` are by property, `verbs` are owners, permissions and names."""

    def __init__(self, owner):
        self.name, self.owner, self.parent, self.location = "", owner, NOBODY, NOBODY
        self.children, self.contents, self.defined, self.cells, self.verbs = [], [], [], {}, []
        self.flags = dict.fromkeys(FLAGS, 0)


def fits(names, asked):
    """Is true if a name fits one of the patterns."""
    asked = folded(asked)
    for pattern in filter(None, folded(names).split(" ")):
        base = pattern.replace("*", "")
        least = pattern.index("*") if "*" in pattern else len(base)
        if (base.startswith(asked) and len(asked) >= least) or (pattern.endswith("*") and asked.startswith(base)):
            return True
    return False


def in_order(given, letters):
    """Returns permissions in their order, each once. Raises E_INVARG for another letter."""
    if any(letter not in letters for letter in folded(given)):
        raise Raised("E_INVARG")
    return "".join(letter for letter in letters if letter in folded(given))


def permit(allowed):
    if not allowed:
        raise Raised("E_PERM")


class World:
    """The calls take a programmer first, then their arguments: numbers in place of objects, and infos as lists."""

    def __init__(self):
        self.things, self.highest, self.players = {number: Thing(WIZARD) for number in (4, 5, 6)}, 6, [WIZARD]

    # What calls look at.

    def valid(self, number):
        if number not in self.things:
            raise Raised("E_INVARG")
        return self.things[number]

    def above(self, number):
        """Returns an object and its ancestors."""
        while number != NOBODY:
            yield number
            number = self.things[number].parent

    def below(self, number, those="children"):
        """Returns an object and its descendants, or what is in it."""
        return [number] + [other for inner in getattr(self.things[number], those) for other in self.below(inner, those)]

    def is_wizard(self, programmer):
        return programmer == WIZARD or (programmer in self.things and self.things[programmer].flags["wizard"] == 1)

    def owns(self, programmer, number):
        return self.is_wizard(programmer) or self.things[number].owner == programmer

    def may(self, programmer, number, flag):
        return self.owns(programmer, number) or self.things[number].flags[flag] == 1

    def may_cell(self, programmer, cell, letter):
        return self.is_wizard(programmer) or cell.owner == programmer or letter in cell.permissions

    def property(self, number, name):
        """Returns the property of this name that an object has, or None. No built-in one is such a property."""
        if folded(name) in BUILT_IN:
            return None
        found = (defined for other in self.above(number) for defined in self.things[other].defined if folded(defined.name) == folded(name))
        return next(found, None)

    def cell(self, number, name):
        found = self.property(number, name)
        if found is None:
            raise Raised("E_PROPNF")
        return found, self.things[number].cells[found]

    def is_taken(self, number, name, but=None):
        related = [*self.above(number), *self.below(number)]
        names = [folded(defined.name) for other in related for defined in self.things[other].defined if defined is not but]
        return folded(name) in BUILT_IN + names

    def inherited(self, number, defined):
        """Returns the cell that an object gets of a property that it inherits."""
        thing = self.things[number]
        cell = self.things[thing.parent].cells[defined]
        return Cell(None, thing.owner if "c" in cell.permissions else cell.owner, cell.permissions)

    def place(self, number, verb):
        """Returns the place of a verb, from 0."""
        verbs = self.things[number].verbs
        fitting = [place for place, (_, _, names) in enumerate(verbs) if (place + 1 == verb if type(verb) is int else fits(names, verb))]
        if not fitting:
            raise Raised("E_VERBNF")
        return fitting[0]

    # Objects.

    def create(self, programmer, parent, owner=None):
        permit(parent == NOBODY or (parent in self.things and self.may(programmer, parent, "f")))
        permit(owner in (None, programmer) or self.is_wizard(programmer))
        self.highest += 1
        owner = programmer if owner is None else owner
        self.things[self.highest] = thing = Thing(self.highest if owner == NOBODY else owner)
        self.put_below(self.highest, parent)
        thing.cells = {defined: self.inherited(self.highest, defined) for defined in (self.things[parent].cells if parent != NOBODY else {})}
        return Obj(self.highest)

    def put_below(self, number, parent):
        thing = self.things[number]
        if thing.parent != NOBODY:
            self.things[thing.parent].children.remove(number)
        thing.parent = parent
        if parent != NOBODY:
            self.things[parent].children.append(number)

    def put_in(self, number, place):
        thing = self.things[number]
        if thing.location != NOBODY:
            self.things[thing.location].contents.remove(number)
        thing.location = place
        if place != NOBODY:
            self.things[place].contents.append(number)

    def recycle(self, programmer, number):
        thing = self.valid(number)
        permit(self.owns(programmer, number))
        for other in [*thing.contents]:
            self.put_in(other, NOBODY)
        for other in self.below(number):
            self.things[other].cells = {defined: cell for defined, cell in self.things[other].cells.items() if defined not in thing.defined}
        for child in [*thing.children]:
            self.put_below(child, thing.parent)
        self.put_below(number, NOBODY)
        self.put_in(number, NOBODY)
        self.players = [player for player in self.players if player != number]
        del self.things[number]
        return 0

    def chparent(self, programmer, number, parent):
        thing = self.valid(number)
        if parent != NOBODY and self.valid(parent) and parent in self.below(number):
            raise Raised("E_RECMOVE")
        above = [folded(defined.name) for other in self.above(parent) for defined in self.things[other].defined]
        if any(folded(defined.name) in above for other in self.below(number) for defined in self.things[other].defined):
            raise Raised("E_INVARG")
        permit(self.owns(programmer, number) and (parent == NOBODY or self.may(programmer, parent, "f")))
        if parent != thing.parent:
            self.put_below(number, parent)
            for other in self.below(number):
                had = self.things[other].cells
                every = [defined for above in self.above(other) for defined in self.things[above].defined]
                self.things[other].cells = {defined: had.get(defined) or self.inherited(other, defined) for defined in every}
        return 0

    def move(self, programmer, number, place):
        thing = self.valid(number)
        if place != NOBODY:
            self.valid(place)
        permit(self.owns(programmer, number))
        if place != NOBODY and not self.is_wizard(programmer):
            raise Raised("E_NACC")
        if place != thing.location:
            if place != NOBODY and place in self.below(number, "contents"):
                raise Raised("E_RECMOVE")
            self.put_in(number, place)
        return 0

    def set_player_flag(self, programmer, number, value):
        self.valid(number)
        permit(self.is_wizard(programmer))
        others = [player for player in self.players if player != number]
        self.players = (self.players if number in self.players else [*others, number]) if is_true(value) else others
        return 0

    def parent(self, _, number):
        return Obj(self.valid(number).parent)

    def children(self, _, number):
        return [Obj(child) for child in self.valid(number).children]

    def is_player(self, _, number):
        self.valid(number)
        return int(number in self.players)

    # Properties.

    def properties(self, programmer, number):
        thing = self.valid(number)
        permit(self.may(programmer, number, "r"))
        return [defined.name for defined in thing.defined]

    def add_property(self, programmer, number, name, value, info):
        thing, permissions = self.valid(number), in_order(info[1], "rwc")
        if self.is_taken(number, name):
            raise Raised("E_INVARG")
        permit(self.may(programmer, number, "w") and (info[0].number == programmer or self.is_wizard(programmer)))
        defined = Property(name)
        thing.defined.append(defined)
        thing.cells[defined] = Cell(value, info[0].number, permissions)
        for other in self.below(number)[1:]:
            self.things[other].cells[defined] = self.inherited(other, defined)
        return 0

    def delete_property(self, programmer, number, name):
        thing = self.valid(number)
        defined = self.property(number, name)
        if defined not in thing.defined:
            raise Raised("E_PROPNF")
        permit(self.may(programmer, number, "w"))
        for other in self.below(number):
            del self.things[other].cells[defined]
        thing.defined.remove(defined)
        return 0

    def property_info(self, programmer, number, name):
        self.valid(number)
        _, cell = self.cell(number, name)
        permit(self.may_cell(programmer, cell, "r"))
        return [Obj(cell.owner), cell.permissions]

    def set_property_info(self, programmer, number, name, info):
        thing, permissions = self.valid(number), in_order(info[1], "rwc")
        defined, cell = self.cell(number, name)
        if info[2:] and (defined not in thing.defined or self.is_taken(number, info[2], defined)):
            raise Raised("E_INVARG")
        permit(self.may_cell(programmer, cell, "w") and (info[0].number == cell.owner or self.is_wizard(programmer)))
        cell.owner, cell.permissions = info[0].number, permissions
        defined.name = info[2] if info[2:] else defined.name
        return 0

    def clear_property(self, programmer, number, name):
        thing = self.valid(number)
        defined, cell = self.cell(number, name)
        if defined in thing.defined:
            raise Raised("E_INVARG")
        permit(self.may_cell(programmer, cell, "w"))
        cell.is_clear = True
        return 0

    def is_clear_property(self, programmer, number, name):
        self.valid(number)
        _, cell = self.cell(number, name)
        permit(self.may_cell(programmer, cell, "r"))
        return int(cell.is_clear)

    def known(self, number):
        if number not in self.things:
            raise Raised("E_INVIND")
        return self.things[number]

    def get(self, programmer, number, name):
        thing, plain = self.known(number), folded(name)
        if plain in BUILT_IN:
            held = {"name": thing.name, "owner": Obj(thing.owner), "location": Obj(thing.location), "contents": [*map(Obj, thing.contents)]}
            return {**held, **thing.flags}[plain]
        defined, cell = self.cell(number, name)
        permit(self.may_cell(programmer, cell, "r"))
        return next(cells[defined].value for cells in (self.things[other].cells for other in self.above(number)) if not cells[defined].is_clear)

    def set(self, programmer, number, name, value):
        self.known(number)
        if folded(name) in BUILT_IN:
            self.set_built_in(programmer, number, folded(name), value)
            return value
        _, cell = self.cell(number, name)
        permit(self.may_cell(programmer, cell, "w"))
        cell.value, cell.is_clear = value, False
        return value

    def set_built_in(self, programmer, number, name, value):
        thing = self.things[number]
        if (name == "name" and type(value) is not str) or (name == "owner" and type(value) is not Obj):
            raise Raised("E_TYPE")
        by_owner = name in ("r", "w", "f") or (name == "name" and number not in self.players)
        permit(name not in ("location", "contents") and (self.is_wizard(programmer) or (by_owner and self.owns(programmer, number))))
        if name in FLAGS:
            thing.flags[name] = int(is_true(value))
        else:
            setattr(thing, name, value.number if name == "owner" else value)

    # Verbs.

    def verbs(self, programmer, number):
        thing = self.valid(number)
        permit(self.may(programmer, number, "r"))
        return [names for _, _, names in thing.verbs]

    def add_verb(self, programmer, number, info, _):
        thing, permissions = self.valid(number), in_order(info[1], "rwxd")
        if not info[2].strip(" "):
            raise Raised("E_INVARG")
        permit(self.may(programmer, number, "w") and (info[0].number == programmer or self.is_wizard(programmer)))
        thing.verbs.append((info[0].number, permissions, info[2]))
        return 0

    def delete_verb(self, programmer, number, verb):
        thing = self.valid(number)
        place = self.place(number, verb)
        permit(self.may(programmer, number, "w"))
        del thing.verbs[place]
        return 0

    def verb_info(self, programmer, number, verb):
        thing = self.valid(number)
        owner, permissions, names = thing.verbs[self.place(number, verb)]
        permit(self.is_wizard(programmer) or owner == programmer or "r" in permissions)
        return [Obj(owner), permissions, names]

    def set_verb_info(self, programmer, number, verb, info):
        thing, permissions = self.valid(number), in_order(info[1], "rwxd")
        place = self.place(number, verb)
        owner, present, _ = thing.verbs[place]
        if not info[2].strip(" "):
            raise Raised("E_INVARG")
        permit(self.is_wizard(programmer) or ((owner == programmer or "w" in present) and info[0].number == owner))
        thing.verbs[place] = (info[0].number, permissions, info[2])
        return 0
