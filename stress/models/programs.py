"""Random programs: trees that `language.py` walks, and their texts. Most expressions have values of the type that is wanted.

The variables a, b, i and k begin as integers, s as a string, l and m as lists of integers, and c as a list of lists."""

from functions import SIGNATURES
from values import ERRORS, Obj, literal

NUMBERS = [0, 1, 1, 2, 2, 3, 5, 7, 100, -1, -2, 65536, 2147483647, -2147483648]
TEXTS = ["", "a", "ab", "abc", "Ab", "A", "b", "x y", "12", "-3"]
RAISED = ["E_TYPE", "E_DIV", "E_RANGE", "E_VARNF", "E_PERM"]
VARIABLES = ["a", "b", "c", "i", "k", "s", "l", "m", "A"]
VERBS = ["f", "g", "h"]
SIGNS = ["+", "+", "+", "-", "*", "/", "%", "^", "==", "!=", "<", "<=", ">", ">=", "in"]
LENGTH, PROPERTY = ("length",), ("property",)


def of(value):
    return ("literal", value)


def variable(name):
    return ("variable", name)


def numbers(*values):
    return ("list", [of(value) for value in values])


def text_of_items(nodes):
    return ", ".join("@" + text(node[1]) if node[0] == "splice" else text(node) for node in nodes)


def text_of_piece(kind, name, default):
    return {"plain": "", "optional": "?", "rest": "@"}[kind] + name + (f" = {text(default)}" if default else "")


def text_of_base(node):
    return f"({text(node)})" if node[0] == "literal" and type(node[1]) is int else text(node)


def text_of_catch(body, codes, default):
    named = "ANY" if codes == "ANY" else text_of_items(codes)
    return f"`{text(body)} ! {named}" + (f" => {text(default)}" if default else "") + "'"


TEXT = {
    "literal": literal,
    "variable": str,
    "length": lambda: "$",
    "negation": lambda node: f"(-{text(node)})",
    "not": lambda node: f"(!{text(node)})",
    "binary": lambda sign, one, other: f"({text(one)} {sign} {text(other)})",
    "and": lambda one, other: f"({text(one)} && {text(other)})",
    "or": lambda one, other: f"({text(one)} || {text(other)})",
    "conditional": lambda condition, one, other: f"({text(condition)} ? {text(one)} | {text(other)})",
    "index": lambda base, place: f"{text_of_base(base)}[{text(place)}]",
    "range": lambda base, low, high: f"{text_of_base(base)}[{text(low)}..{text(high)}]",
    "list": lambda nodes: "{" + text_of_items(nodes) + "}",
    "scatter": lambda pieces: "{" + ", ".join(text_of_piece(*piece) for piece in pieces) + "}",
    "call": lambda name, nodes: f"{name}({text_of_items(nodes)})",
    "verb": lambda base, name, nodes: f"{text_of_base(base)}:{name}({text_of_items(nodes)})",
    "property": lambda: "#1.l",
    "catch": text_of_catch,
    "assign": lambda target, node: f"({text(target)} = {text(node)})",
}


def text(node):
    return TEXT[node[0]](*node[1:])


def text_of_if(arms, otherwise):
    shown = [f"{'elseif' if place else 'if'} ({text(condition)}) {text_of(block)}" for place, (condition, block) in enumerate(arms)]
    return " ".join([*shown, *([f"else {text_of(otherwise)}"] if otherwise is not None else []), "endif"])


def text_of_handler(name, codes, block):
    return f"except {name or ''} ({'ANY' if codes == 'ANY' else text_of_items(codes)}) {text_of(block)}"


STATEMENT = {
    "expression": lambda node: f"{text(node)};",
    "return": lambda node: f"return {text(node)};" if node else "return;",
    "if": text_of_if,
    "for_list": lambda name, node, block: f"for {name} in ({text(node)}) {text_of(block)} endfor",
    "for_range": lambda name, low, high, block: f"for {name} in [{text(low)}..{text(high)}] {text_of(block)} endfor",
    "while": lambda name, node, block: f"while {name or ''} ({text(node)}) {text_of(block)} endwhile",
    "leave": lambda name, goes_on: f"{'continue' if goes_on else 'break'} {name or ''};",
    "except": lambda block, handlers: f"try {text_of(block)} {' '.join(text_of_handler(*handler) for handler in handlers)} endtry",
    "finally": lambda block, cleanup: f"try {text_of(block)} finally {text_of(cleanup)} endtry",
}


def text_of(block):
    """Returns the text of statements."""
    return " ".join(STATEMENT[statement[0]](*statement[1:]) for statement in block)


class Programs:
    """Makes programs by a random number generator."""

    def __init__(self, chance):
        self.chance = chance

    def one(self, *ways):
        """Returns what one of the ways makes, each with its weight."""
        return self.chance.choices([make for _, make in ways], [weight for weight, _ in ways])[0]()

    def pick(self, *nodes):
        return self.chance.choice(nodes)

    def some(self, most, make):
        return [make() for _ in range(self.chance.randint(1, most))]

    def place(self):
        return self.pick(of(1), of(2), LENGTH, LENGTH, variable("i"), variable("k"), ("binary", self.chance.choice("+-"), LENGTH, of(1)))

    def leaf(self):
        return self.one(
            (6, lambda: variable(self.chance.choice(VARIABLES))),
            (3, lambda: of(self.chance.choice(NUMBERS))),
            (2, lambda: of(self.chance.choice(TEXTS))),
            (1, lambda: of(Obj(self.chance.choice([0, 1, -1, 9])))),
            (1, lambda: of(ERRORS[self.chance.choice(RAISED)])),
            (1, lambda: PROPERTY),
        )

    def items(self, depth, most=3):
        return [("splice", self.any(depth)) if self.chance.random() < 0.3 else self.any(depth) for _ in range(self.chance.randint(0, most))]

    def any(self, depth):
        """Returns an expression of any type, which often fails."""
        if depth <= 0:
            return self.leaf()
        deeper = lambda: self.any(depth - 1)  # noqa: E731
        return self.one(
            (10, lambda: ("binary", self.chance.choice(SIGNS), deeper(), deeper())),
            (2, lambda: (self.chance.choice(["and", "or"]), deeper(), deeper())),
            (1, lambda: ("conditional", deeper(), deeper(), deeper())),
            (1, lambda: ("not", deeper())),
            (1, lambda: ("negation", ("not", deeper()))),
            (4, lambda: ("index", deeper(), self.place())),
            (3, lambda: ("range", deeper(), self.place(), self.place())),
            (4, lambda: ("list", self.items(depth - 1))),
            (5, lambda: ("call", self.chance.choice(list(SIGNATURES)), self.items(depth - 1, 4))),
            (2, lambda: ("catch", deeper(), self.codes(), self.pick(None, self.leaf()))),
            (3, lambda: self.assignment(depth - 1)),
            (5, self.leaf),
        )

    def codes(self):
        if self.chance.random() < 0.4:
            return "ANY"
        named = [of(ERRORS[name]) for name in RAISED] + [("splice", numbers(ERRORS["E_TYPE"], ERRORS["E_ARGS"])), variable("k"), ("splice", variable("l"))]
        return self.some(2, lambda: self.chance.choice(named))

    def call_of_verb(self):
        base = self.pick(variable("this"), variable("this"), of(Obj(1)), of(Obj(2)), of(Obj(9)) if self.chance.random() < 0.2 else of(Obj(2)))
        given = [self.pick(self.number(0), of(2), ("splice", self.list(0))) for _ in range(self.chance.randint(0, 2))]
        return ("verb", base, self.chance.choice(VERBS if self.chance.random() < 0.9 else ["no"]), given)

    def number(self, depth):
        if self.chance.random() < 0.02:
            return self.any(1)
        if depth <= 0:
            return self.pick(*(variable(name) for name in "abik"), of(self.chance.choice(NUMBERS)))
        deeper = lambda: self.number(depth - 1)  # noqa: E731
        return self.one(
            (8, lambda: ("binary", self.chance.choice("++-**/%^"), deeper(), deeper())),
            (2, lambda: ("binary", self.chance.choice(["==", "<", ">=", "!="]), deeper(), deeper())),
            (2, lambda: ("call", "length", [self.list(depth - 1)])),
            (3, lambda: ("index", self.list(depth - 1), self.place())),
            (1, lambda: ("binary", "in", deeper(), self.list(depth - 1))),
            (1, lambda: ("call", self.chance.choice(["min", "max"]), [deeper(), ("splice", self.list(depth - 1))])),
            (1, lambda: ("conditional", deeper(), deeper(), deeper())),
            (1, lambda: ("catch", deeper(), "ANY", self.number(0))),
            (1, lambda: ("call", "toint", [self.string(depth - 1)])),
            (1, lambda: ("index", ("index", variable("c"), self.place()), self.place())),
            (1, lambda: ("assign", variable(self.chance.choice("abik")), deeper())),
            (3, self.call_of_verb),
        )

    def list(self, depth):
        if self.chance.random() < 0.02:
            return self.any(1)
        if depth <= 0:
            return self.pick(variable("l"), variable("m"), PROPERTY, numbers(*(self.chance.randint(0, 9) for _ in range(self.chance.randint(1, 3)))))
        deeper = lambda: self.list(depth - 1)  # noqa: E731
        return self.one(
            (8, lambda: ("list", self.some(3, lambda: self.pick(("splice", deeper()), self.number(depth - 1), self.number(depth - 1))))),
            (3, lambda: ("range", deeper(), self.pick(of(1), of(2), self.place()), self.pick(LENGTH, self.place()))),
            (4, lambda: ("call", self.chance.choice(["listappend", "setadd", "setremove", "listinsert"]), [deeper(), self.number(depth - 1)])),
            (1, lambda: ("call", "listset", [deeper(), self.number(depth - 1), of(1)])),
            (1, lambda: ("call", "listdelete", [deeper(), of(1)])),
            (1, lambda: ("index", variable("c"), self.place())),
            (1, lambda: self.list(0)),
        )

    def string(self, depth):
        if depth <= 0:
            return self.pick(variable("s"), of("abc"), of("7"))
        return self.one(
            (4, lambda: ("binary", "+", self.string(depth - 1), self.string(depth - 1))),
            (2, lambda: ("call", "tostr", [self.number(depth - 1), self.string(depth - 1)])),
            (2, lambda: ("range", self.string(depth - 1), of(1), self.place())),
            (2, lambda: ("call", "strsub", [self.string(depth - 1), of("a"), self.string(0)])),
        )

    def grown(self, target, depth):
        """Returns a value that is made of what the target holds."""
        return self.one(
            (4, lambda: ("list", [("splice", target), self.number(depth)])),
            (1, lambda: ("list", [self.number(depth), ("splice", target)])),
            (1, lambda: ("call", "listset", [target, self.number(depth), self.pick(of(1), of(2))])),
            (1, lambda: ("call", self.chance.choice(["listappend", "setadd", "setremove"]), [target, self.number(depth)])),
            (1, lambda: ("call", "listdelete", [target, of(1)])),
            (2, lambda: self.list(depth)),
        )

    def within(self, base):
        return ("index", base, self.pick(of(1), of(1), of(2), LENGTH, LENGTH, variable("i"), variable("k")))

    def pieces(self):
        kinds = self.some(3, lambda: self.chance.choice(["plain", "plain", "optional", "rest"]))
        kinds = [kind if kind != "rest" or place == kinds.index("rest") else "plain" for place, kind in enumerate(kinds)]
        names = [self.chance.choice("lm" if kind == "rest" else "abik") for kind in kinds]
        return [(kind, name, self.number(1) if kind == "optional" and self.chance.random() < 0.6 else None) for kind, name in zip(kinds, names)]

    def assignment(self, depth):
        depth = min(depth, 2)
        lists = variable(self.chance.choice("lm"))
        inner, held = self.within(variable("c")), self.within(PROPERTY)
        return self.one(
            (4, lambda: ("assign", variable(self.chance.choice("abik")), self.number(depth))),
            (1, lambda: ("assign", variable(self.chance.choice(VARIABLES)), self.any(depth))),
            (4, lambda: ("assign", lists, self.grown(lists, depth))),
            (1, lambda: ("assign", variable("s"), self.string(depth))),
            (1, lambda: ("assign", self.within(variable("s")), ("index", of("xyz"), of(self.chance.randint(1, 3))))),
            (2, lambda: ("assign", self.within(lists), self.number(depth))),
            (2, lambda: ("assign", inner, self.grown(inner, depth))),
            (2, lambda: ("assign", self.within(inner), self.pick(self.number(depth), self.list(0)))),
            (2, lambda: ("assign", held, self.pick(self.number(depth), self.grown(held, 0)))),
            (1, lambda: ("assign", self.within(held), self.number(depth))),
            (1, lambda: ("assign", PROPERTY, self.pick(self.grown(PROPERTY, depth), variable("c"), ("list", [variable("l"), self.number(0)])))),
            (1, lambda: ("assign", ("range", lists, self.place(), self.pick(LENGTH, of(1), of(0))), self.list(depth))),
            (1, lambda: ("assign", ("scatter", self.pieces()), self.list(depth))),
        )

    def block(self, depth, loops):
        return self.some(3, lambda: self.statement(depth, loops))

    def loop(self, depth, loops):
        name, named = self.chance.choice("ika"), self.pick(None, "x", "y")
        grows = ("expression", ("assign", variable("m"), ("list", [("splice", variable("m")), self.number(1)])))
        return self.one(
            (3, lambda: ("for_list", name, self.list(1), self.block(depth, [*loops, name]))),
            (3, lambda: ("for_range", name, of(1), self.pick(of(4), ("call", "length", [variable("l")])), self.block(depth, [*loops, name]))),
            (1, lambda: ("while", named, ("binary", "<", ("call", "length", [variable("m")]), of(5)), [grows, *self.block(depth, [*loops, named])])),
        )

    def simple(self, loops):
        raising = ("call", "raise", [of(ERRORS[self.chance.choice(RAISED)]), *self.pick([], [of("why")], [of("why"), self.number(0)])])
        leaving = ("leave", self.chance.choice([None, *filter(None, loops)]), self.chance.random() < 0.5)
        return self.one(
            (20, lambda: ("expression", self.assignment(2))),
            (2, lambda: ("expression", self.any(2))),
            (1, lambda: ("expression", raising)),
            (1, lambda: ("return", self.number(1))),
            (3 if loops else 0, lambda: leaving),
        )

    def statement(self, depth, loops):
        if depth <= 0 or self.chance.random() < 0.45:
            return self.simple(loops)
        deeper = lambda: self.block(depth - 1, loops)  # noqa: E731
        return self.one(
            (6, lambda: ("if", self.some(2, lambda: (self.number(2), deeper())), self.pick(None, deeper()))),
            (7, lambda: self.loop(depth - 1, loops)),
            (4, lambda: ("except", deeper(), self.some(2, lambda: (self.pick(None, "e", "a"), self.codes(), deeper())))),
            (2, lambda: ("finally", deeper(), deeper())),
        )

    def guarded(self, count, share):
        """Returns some statements, of which a share is each in a `try` of its own, so that the others run after an error too."""
        for _ in range(count):
            statement = self.statement(3, [])
            yield ("except", [statement], [(self.pick(None, "e"), "ANY", [])]) if self.chance.random() < share else statement

    def program(self):
        """Returns a program that returns its variables, the property and the ticks that are left."""
        shown = [("catch", variable(name), [of(ERRORS["E_VARNF"])], None) for name in "abciklmes"] + [PROPERTY, ("call", "ticks_left", [])]
        begun = ("assign", PROPERTY, ("list", [numbers(1, 2), of(3)]))
        return [("expression", begun), *beginning({"a": of(3), "b": of(-2), "m": numbers(7, 8)}), *self.guarded(self.chance.randint(4, 10), 0.9),
                ("return", ("list", shown))]  # fmt: skip

    def verb(self):
        """Returns the program of a verb, which takes its arguments in one of two ways."""
        taken = [("expression", ("assign", ("scatter", [("optional", "a", of(3)), ("optional", "b", of(-2)), ("rest", "m", None)]), variable("args")))]
        counted = list(beginning({"a": ("call", "length", [variable("args")]), "b": of(2), "m": variable("args")}))
        return [*self.pick(taken, counted), *beginning({}), *self.guarded(self.chance.randint(2, 5), 0.35), ("return", self.number(2))]


def beginning(more):
    """Returns assignments to the variables that every program begins with, and to more."""
    lists = ("list", [numbers(1, 2), numbers(3), numbers()])
    for name, node in {**more, "i": of(1), "k": of(2), "s": of("abC"), "l": numbers(4, 5, 6), "c": lists}.items():
        yield ("expression", ("assign", variable(name), node))
