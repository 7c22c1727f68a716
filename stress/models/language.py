"""A model of the language: it walks the tree of a program, as docs/reference/language.md says. `programs.py` has the trees.

A world has the property `l` of #1, which all may write, and verbs of #1 and #2, whose parent is #1. A wizard, #3, owns them."""

from functions import called
from values import Obj, Raised, TooLong, element, equal, folded, is_true, light, operated, part, same, with_element, with_part, wrapped

# The ticks of a task, and those that the typed line takes before its program.
TICKS = 100_000
TYPED = 26
# A program that takes more ticks is left out.
SLOWEST = 4_000
FRAMES = 50


class OutOfTicks(Exception):
    """The ticks ran out. `frames` are those that it has left."""

    def __init__(self):
        super().__init__()
        self.frames = []


class Returned(Exception):
    def __init__(self, value):
        super().__init__()
        self.value = value


class Left(Exception):
    """A `break` or a `continue`, of a loop of this name or of the innermost one."""

    def __init__(self, name, goes_on):
        super().__init__()
        self.name, self.goes_on = name, goes_on


class Task:
    """The ticks that are left, the property, and the verbs: by their object's number and their name, the debug bit and the program."""

    def __init__(self, verbs, value):
        self.ticks, self.verbs, self.property = TICKS - TYPED, verbs, value

    def tick(self):
        if self.ticks < TICKS - SLOWEST:
            raise TooLong
        if self.ticks == 0:
            raise OutOfTicks
        self.ticks -= 1


class Frame:
    """A verb that runs. Its variables are by their folded names."""

    def __init__(self, task, debug, this, definer, name, args, depth):
        self.task, self.debug, self.this, self.definer, self.name, self.depth = task, debug, this, definer, name, depth
        self.variables, self.lengths = {"args": args, "this": Obj(this)}, []

    def entry(self):
        """Returns what `callers()` and a handler have of the frame."""
        return [Obj(self.this), self.name, Obj(3), Obj(self.definer), Obj(3)]

    def value(self, node):
        """Evaluates a node. Without the debug bit its own error is its value."""
        self.task.tick()
        try:
            return getattr(self, "value_" + node[0])(*node[1:])
        except Raised as error:
            error.frames = error.frames or [self]
            if self.debug or error.frames != [self]:
                raise
            return error.code

    def value_literal(self, value):
        return value

    def value_variable(self, name):
        if folded(name) not in self.variables:
            raise Raised("E_VARNF")
        return self.variables[folded(name)]

    def value_length(self):
        if type(self.lengths[-1]) not in (str, list):
            raise Raised("E_TYPE")
        return len(self.lengths[-1])

    def value_negation(self, node):
        value = self.value(node)
        if type(value) is not int:
            raise Raised("E_TYPE")
        return wrapped(-value)

    def value_not(self, node):
        return int(not is_true(self.value(node)))

    def value_binary(self, sign, one, other):
        return operated(sign, self.value(one), self.value(other))

    def value_and(self, one, other):
        value = self.value(one)
        return self.value(other) if is_true(value) else value

    def value_or(self, one, other):
        value = self.value(one)
        return value if is_true(value) else self.value(other)

    def value_conditional(self, condition, one, other):
        return self.value(one if is_true(self.value(condition)) else other)

    def places(self, base, nodes):
        """Evaluates the places in an index of the base."""
        self.lengths.append(base)
        try:
            return [self.value(node) for node in nodes]
        finally:
            self.lengths.pop()

    def value_index(self, base, place):
        value = self.value(base)
        return element(value, *self.places(value, [place]))

    def value_range(self, base, low, high):
        value = self.value(base)
        return part(value, *self.places(value, [low, high]))

    def items(self, nodes):
        values = []
        for node in nodes:
            value = self.value(node[1] if node[0] == "splice" else node)
            if node[0] == "splice" and type(value) is not list:
                raise Raised("E_TYPE")
            values += value if node[0] == "splice" else [value]
        return values

    def value_list(self, nodes):
        return light(self.items(nodes))

    def value_call(self, name, nodes):
        given = self.items(nodes)
        return called(name, given, self.task.ticks)

    def value_property(self):
        self.task.tick()
        self.task.tick()
        return self.task.property

    def found(self, number, name):
        """Returns the definer of a verb of this name that an object has, or None."""
        return next((definer for definer in ((2, 1) if number == 2 else (number, 1)) if (definer, name) in self.task.verbs), None)

    def value_verb(self, base, name, nodes):
        base = self.value(base)
        self.task.tick()
        given = light(self.items(nodes))
        if type(base) is not Obj:
            raise Raised("E_TYPE")
        if not 0 <= base.number <= 4:
            raise Raised("E_INVIND")
        definer = self.found(base.number, name)
        if definer is None:
            raise Raised("E_VERBNF")
        if self.depth == FRAMES:
            raise Raised("E_MAXREC")
        debug, program = self.task.verbs[definer, name]
        return self.ended(Frame(self.task, debug, base.number, definer, name, given, self.depth + 1), program)

    def ended(self, frame, program):
        """Runs a called frame. An error that leaves it, or the end of the ticks, passes this frame too."""
        try:
            return frame.result(program)
        except (Raised, OutOfTicks) as error:
            error.frames = [*(error.frames or [frame]), self]
            raise

    def result(self, program):
        """Runs a program and returns what it gives."""
        try:
            self.run(program)
        except Returned as end:
            return end.value
        return 0

    def value_catch(self, body, codes, default):
        named = None if codes == "ANY" else self.items(codes)
        try:
            return self.value(body)
        except Raised as error:
            if named is not None and not any(same(error.code, code) for code in named):
                raise
            return error.code if default is None else self.value(default)

    def value_assign(self, target, node):
        if target[0] == "variable":
            self.variables[folded(target[1])] = value = self.value(node)
        elif target[0] == "scatter":
            value = self.value(node)
            self.scatter(target[1], value)
        else:
            value = self.store(target, node)
        return value

    def store(self, target, node):
        """Assigns to a property, or to a place in a variable or in a property. Each container is read before the next place is evaluated."""
        path = []
        while target[0] in ("index", "range"):
            path.insert(0, target)
            target = target[1]
        held = self.value_property() if target[0] == "property" else self.value_variable(target[1])
        bases, places = [], []
        for step, index in enumerate(path):
            bases.append(element(bases[-1], *places[-1]) if step else held)
            places.append(self.places(bases[-1], index[2:]))
        value = made = self.value(node)
        for index, base, place in list(zip(path, bases, places))[::-1]:
            made = with_element(base, *place, made) if index[0] == "index" else with_part(base, *place, made)
        if target[0] == "property":
            self.task.property = made
        else:
            self.variables[folded(target[1])] = made
        return value

    def scatter(self, pieces, value):
        if type(value) is not list:
            raise Raised("E_TYPE")
        kinds = [kind for kind, _, _ in pieces]
        required, optional = kinds.count("plain"), kinds.count("optional")
        if len(value) < required or ("rest" not in kinds and len(value) > required + optional):
            raise Raised("E_ARGS")
        filled, at, defaults = min(optional, len(value) - required), 0, []
        rest = len(value) - required - filled
        for kind, name, default in pieces:
            if kind == "optional" and filled == 0:
                defaults += [(name, default)] if default else []
                continue
            filled -= kind == "optional"
            self.variables[folded(name)] = value[at : at + rest] if kind == "rest" else value[at]
            at += rest if kind == "rest" else 1
        for name, default in defaults:
            self.variables[folded(name)] = self.value(default)

    def run(self, block):
        for statement in block:
            self.task.tick()
            getattr(self, "run_" + statement[0])(*statement[1:])

    def run_expression(self, node):
        self.value(node)

    def run_return(self, node):
        raise Returned(0 if node is None else self.value(node))

    def run_if(self, arms, otherwise):
        for condition, block in arms:
            if is_true(self.value(condition)):
                self.run(block)
                return
        self.run(otherwise or [])

    def goes_on(self, name, block):
        """Runs a turn of a loop. Is false if it leaves the loop."""
        try:
            self.run(block)
        except Left as end:
            if end.name is not None and (name is None or folded(end.name) != folded(name)):
                raise
            return end.goes_on
        return True

    def turns(self, name, values, block):
        for value in values:
            self.task.tick()
            self.variables[folded(name)] = value
            if not self.goes_on(name, block):
                return

    def refuse(self):
        """Raises E_TYPE for a loop that has nothing to go through. Without the debug bit it makes no turn."""
        if self.debug:
            raise Raised("E_TYPE")

    def run_for_list(self, name, node, block):
        values = self.value(node)
        if type(values) is list:
            self.turns(name, values, block)
        else:
            self.refuse()

    def run_for_range(self, name, low, high, block):
        low, high = self.value(low), self.value(high)
        if type(low) is int and type(high) is int:
            self.turns(name, range(low, high + 1), block)
        elif type(low) is Obj and type(high) is Obj:
            self.turns(name, map(Obj, range(low.number, high.number + 1)), block)
        else:
            self.refuse()

    def run_while(self, name, condition, block):
        while is_true(self.value(condition)):
            self.task.tick()
            if not self.goes_on(name, block):
                return

    def run_leave(self, name, goes_on):
        raise Left(name, goes_on)

    def named(self, codes):
        """Returns the errors that a handler names, None for all. Without the debug bit codes that fail name none."""
        try:
            return None if codes == "ANY" else self.items(codes)
        except Raised as error:
            error.frames = error.frames or [self]
            if self.debug or error.frames != [self]:
                raise
            return []

    def run_except(self, block, handlers):
        handlers = [(name, self.named(codes), statements) for name, codes, statements in handlers]
        try:
            self.run(block)
        except Raised as error:
            error.frames = error.frames or [self]
            for name, codes, statements in handlers:
                if codes is None or any(equal(error.code, code) for code in codes):
                    if name:
                        self.variables[folded(name)] = [error.code, error.message, error.value, [frame.entry() for frame in error.frames]]
                    return self.run(statements)
            raise

    def run_finally(self, block, cleanup):
        try:
            self.run(block)
        except (Raised, Returned, Left):
            self.run(cleanup)
            raise
        self.run(cleanup)


def traceback(message, frames):
    """Returns the lines of a traceback up to the typed line."""
    named = [f"#{frame.definer}:{frame.name}" + ("" if frame.this == frame.definer else f" (this == #{frame.this})") for frame in frames]
    return [f"{named[0]}:  {message}", *(f"... called from {name}" for name in [*named[1:], "#3:eval"]), "(End of traceback)"]


def outcome(task, program, debug):
    """Runs a program that the wizard types, as the verb `t` of #1. Returns what it gives, or the lines of its traceback."""
    frame = Frame(task, debug, 1, 1, "t", [], 2)
    try:
        return frame.result(program), None
    except (Raised, OutOfTicks) as end:
        return None, traceback(end.message if isinstance(end, Raised) else "Task ran out of ticks", end.frames or [frame])

