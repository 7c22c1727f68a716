"""The built-in functions over values, as docs/reference/language.md says."""

import re

from values import Err, Obj, Raised, equal, first_place, folded, is_true, light, literal, plain, same, wrapped

# The types of the arguments: I, S, E, L, A for any, X for a string or a list, N for all but lists. What comes after `?` may be missing; `*` and `+`
# begin the type of any number of arguments, from none or from one on.
SIGNATURES = {
    "typeof": "A", "length": "X", "tostr": "*A", "toliteral": "A", "toint": "N", "equal": "AA", "strcmp": "SS", "min": "+I", "max": "+I", "abs": "I",
    "index": "SS?A", "rindex": "SS?A", "strsub": "SSS?A", "listappend": "LA?I", "listinsert": "LA?I", "listset": "LAI", "listdelete": "LI",
    "setadd": "LA", "setremove": "LA", "is_member": "AL", "ticks_left": "", "raise": "E?SA",
}  # fmt: skip
TYPES = (int, Obj, str, Err, list)
FITTING = {"A": TYPES, "X": (str, list), "N": (int, Obj, str, Err), "S": (str,), "I": (int,), "L": (list,), "E": (Err,)}


def checked(name, given):
    """Raises E_ARGS for a wrong number of arguments, then E_TYPE for one of a wrong type."""
    signature = SIGNATURES[name]
    if signature[:1] in ("*", "+"):
        least, most, types = int(signature[0] == "+"), len(given), signature[1] * len(given)
    else:
        required, _, optional = signature.partition("?")
        least, most, types = len(required), len(required + optional), required + optional
    if not least <= len(given) <= most:
        raise Raised("E_ARGS")
    if any(type(value) not in FITTING[kind] for kind, value in zip(types, given)):
        raise Raised("E_TYPE")


def number(text):
    """Returns the integer that a text is as a whole, else 0."""
    found = re.fullmatch(r" *([+-]?) *(\d+)(\.\d*)? *", text)
    return wrapped(int(found[1] + found[2])) if found else 0


def place_of(find, text, searched, exactly=0):
    """Returns the place at which `find`, of strings, finds one text in another, 0 for none."""
    return (find(text, searched) if is_true(exactly) else find(folded(text), folded(searched))) + 1


def replaced(text, old, new, exactly=0):
    if not old:
        raise Raised("E_INVARG")
    made, at = "", 0
    while (found := place_of(str.find, text[at:], old, exactly)) > 0:
        made, at = made + text[at : at + found - 1] + new, at + found - 1 + len(old)
    return light(made + text[at:])


def put_in(values, value, after):
    after = min(max(after, 0), len(values))
    return light(values[:after] + [value] + values[after:])


def changed(values, place, instead):
    """Returns the list with other elements instead of the one at a place."""
    if not 1 <= place <= len(values):
        raise Raised("E_RANGE")
    return light(values[: place - 1] + instead + values[place:])


def without(values, value):
    place = first_place(value, values, equal)
    return values[: place - 1] + values[place:] if place else values


FUNCTIONS = {
    "typeof": lambda a: TYPES.index(type(a)),
    "length": len,
    "tostr": lambda *given: light("".join(map(plain, given))),
    "toliteral": literal,
    "toint": lambda a: number(a) if type(a) is str else a if type(a) is int else a.number,
    "equal": lambda a, b: int(same(a, b)),
    "strcmp": lambda s, t: (s > t) - (s < t),
    "min": lambda *given: min(given),
    "max": lambda *given: max(given),
    "abs": lambda i: wrapped(abs(i)),
    "index": lambda *given: place_of(str.find, *given),
    "rindex": lambda *given: place_of(str.rfind, *given),
    "strsub": replaced,
    "listappend": lambda l, a, i=None: put_in(l, a, len(l) if i is None else i),
    "listinsert": lambda l, a, i=1: put_in(l, a, i - 1),
    "listset": lambda l, a, i: changed(l, i, [a]),
    "listdelete": lambda l, i: changed(l, i, []),
    "setadd": lambda l, a: l if first_place(a, l, equal) else light(l + [a]),
    "setremove": without,
    "is_member": lambda a, l: first_place(a, l, same),
}


def called(name, given, ticks):
    """Returns what a function gives; `ticks` are left."""
    checked(name, given)
    if name == "raise":
        raise Raised(*given)
    return ticks if name == "ticks_left" else FUNCTIONS[name](*given)
