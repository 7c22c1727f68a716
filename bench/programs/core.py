"""Core1 to Core6, each a class below the one before, with the verbs of bench/verbs/names.txt as methods that return their first argument."""

import os

NAMES = os.path.join(os.path.dirname(os.path.dirname(os.path.abspath(__file__))), "verbs/names.txt")


def first(self, value=None):
    return value


kinds = [object]
with open(NAMES) as names:
    for line in names:
        methods = {name.replace("*", ""): first for name in line.split()}
        kinds.append(type(f"Core{len(kinds)}", (kinds[-1],), methods))
_, Core1, Core2, Core3, Core4, Core5, Core6 = kinds
