"""Values of the language, and what operators and places give for them, as docs/reference/language.md says.

An integer is an `int`, a string a `str`, a list a `list` that nothing changes, an object an `Obj`, an error an `Err`."""

from collections import namedtuple

Obj = namedtuple("Obj", "number")
Err = namedtuple("Err", "number")

MESSAGES = {
    "E_NONE": "No error",
    "E_TYPE": "Type mismatch",
    "E_DIV": "Division by zero",
    "E_PERM": "Permission denied",
    "E_PROPNF": "Property not found",
    "E_VERBNF": "Verb not found",
    "E_VARNF": "Variable not found",
    "E_INVIND": "Invalid indirection",
    "E_RECMOVE": "Recursive move",
    "E_MAXREC": "Too many verb calls",
    "E_RANGE": "Range error",
    "E_ARGS": "Incorrect number of arguments",
    "E_NACC": "Move refused by destination",
    "E_INVARG": "Invalid argument",
    "E_QUOTA": "Resource limit exceeded",
    "E_FLOAT": "Floating-point arithmetic error",
}
NAMES = list(MESSAGES)
ERRORS = {name: Err(number) for number, name in enumerate(NAMES)}

# A program whose values weigh more is left out: the model is slow. The rows have the limits.
HEAVIEST = 1_000


class Raised(Exception):
    """An error that is raised, with its message and its value. `frames` are those that it has left, the raising one first."""

    def __init__(self, code, message=None, value=0):
        super().__init__(code)
        self.code = ERRORS[code] if isinstance(code, str) else code
        self.message = MESSAGES[NAMES[self.code.number]] if message is None else message
        self.value = value
        self.frames = []


class TooLong(BaseException):
    """The program takes the model too long."""


def wrapped(number):
    """Returns the number modulo 2^32, with a sign."""
    number &= 0xFFFFFFFF
    return number - (1 << 32) if number >> 31 else number


def folded(text):
    """Returns the text with A to Z folded to a to z."""
    return "".join(chr(ord(letter) + 32) if "A" <= letter <= "Z" else letter for letter in text)


def is_true(value):
    return value != 0 if type(value) is int else len(value) > 0 if type(value) in (str, list) else False


def same(one, other):
    """Is true of equal values without folding."""
    if type(one) is not type(other):
        return False
    if type(one) is list:
        return len(one) == len(other) and all(map(same, one, other))
    return one == other


def equal(one, other):
    """Is true of values that are `==`."""
    if type(one) is str and type(other) is str:
        return folded(one) == folded(other)
    if type(one) is list and type(other) is list:
        return len(one) == len(other) and all(map(equal, one, other))
    return same(one, other)


def first_place(value, values, agree):
    """Returns the first place of a value in a list, 0 for none."""
    return next((place for place, other in enumerate(values, 1) if agree(value, other)), 0)


def literal(value):
    if type(value) is str:
        return '"' + value.replace("\\", "\\\\").replace('"', '\\"') + '"'
    if type(value) is list:
        return "{" + ", ".join(map(literal, value)) + "}"
    return f"#{value.number}" if isinstance(value, Obj) else NAMES[value.number] if isinstance(value, Err) else str(value)


def plain(value):
    """Returns the text of a value that `tostr` gives."""
    if type(value) is str:
        return value
    return "{list}" if type(value) is list else MESSAGES[NAMES[value.number]] if isinstance(value, Err) else literal(value)


def weight(value):
    return 1 + len(value) if type(value) is str else 1 + sum(map(weight, value)) if type(value) is list else 1


def light(value):
    """Returns a value that was made, unless it is too heavy for the model."""
    if type(value) in (str, list) and (len(value) > HEAVIEST or weight(value) > HEAVIEST):
        raise TooLong
    return value


def compared(sign, one, other):
    """Returns 1 or 0 for `<`, `<=`, `>` and `>=`."""
    if type(one) is not type(other) or type(one) is list:
        raise Raised("E_TYPE")
    left, right = (folded(one), folded(other)) if type(one) is str else (one, other)
    return int({"<": left < right, "<=": left <= right, ">": left > right, ">=": left >= right}[sign])


def power(base, exponent):
    if exponent >= 0:
        return wrapped(pow(base, exponent, 1 << 32))
    if base == 0:
        raise Raised("E_DIV")
    return 1 if base == 1 else (-1 if exponent % 2 else 1) if base == -1 else 0


def divided(sign, one, other):
    """Returns the quotient or the remainder, truncated towards zero."""
    if other == 0:
        raise Raised("E_DIV")
    quotient = abs(one) // abs(other) * (1 if (one < 0) == (other < 0) else -1)
    return wrapped(quotient if sign == "/" else one - quotient * other)


def operated(sign, one, other):
    """Returns what a binary operator gives."""
    if sign in ("==", "!="):
        return int(equal(one, other) == (sign == "=="))
    if sign in ("<", "<=", ">", ">="):
        return compared(sign, one, other)
    if sign == "in":
        if type(other) is not list:
            raise Raised("E_TYPE")
        return first_place(one, other, equal)
    if sign == "+" and type(one) is str and type(other) is str:
        return light(one + other)
    if type(one) is not int or type(other) is not int:
        raise Raised("E_TYPE")
    if sign in "/%":
        return divided(sign, one, other)
    return power(one, other) if sign == "^" else wrapped({"+": one + other, "-": one - other, "*": one * other}[sign])


def element(base, place):
    if type(base) not in (str, list) or type(place) is not int:
        raise Raised("E_TYPE")
    if not 1 <= place <= len(base):
        raise Raised("E_RANGE")
    return base[place - 1]


def part(base, low, high):
    if type(base) not in (str, list) or type(low) is not int or type(high) is not int:
        raise Raised("E_TYPE")
    if low <= high and (low < 1 or high > len(base)):
        raise Raised("E_RANGE")
    return base[low - 1 : high] if low <= high else base[:0]


def with_element(base, place, value):
    """Returns the base with a value at a place, as an assignment makes it."""
    if type(base) not in (str, list) or type(place) is not int or (type(base) is str and type(value) is not str):
        raise Raised("E_TYPE")
    if not 1 <= place <= len(base):
        raise Raised("E_RANGE")
    if type(base) is str and len(value) != 1:
        raise Raised("E_INVARG")
    return light(base[: place - 1] + (value if type(base) is str else [value]) + base[place:])


def with_part(base, low, high, value):
    """Returns the base with a value in place of a part, as an assignment makes it."""
    if type(base) not in (str, list) or type(low) is not int or type(high) is not int or type(value) is not type(base):
        raise Raised("E_TYPE")
    if low > len(base) + 1 or high < 0:
        raise Raised("E_RANGE")
    return light(base[: max(low - 1, 0)] + value + base[high:])
