# The loops in Python: each function goes through 4,000 turns, and is called as often as the second argument says.
import sys


class Thing:
    def __init__(self):
        self.size = 0

    def id(self, x):
        return x

    def kept(self, x):
        y = x
        return y


thing = Thing()


def while_():
    i = 0
    while i < 4000:
        i = i + 1


def arithmetic():
    x = 0
    i = 0
    while i < 4000:
        x = x + i * 2 % 7
        i = i + 1


def for_range():
    for i in range(1, 4001):
        x = i


def for_list():
    l = list(range(1, 101))
    for j in range(40):
        for x in l:
            y = x


def index_read():
    l = list(range(1, 101))
    i = 0
    while i < 4000:
        x = l[i % 100]
        i = i + 1


def index_write():
    l = list(range(1, 101))
    i = 0
    while i < 4000:
        l[i % 100] = i
        i = i + 1


def list_append():
    j = 0
    while j < 40:
        l = []
        i = 0
        while i < 100:
            l = [*l, i]
            i = i + 1
        j = j + 1


def string_append():
    j = 0
    while j < 40:
        s = ""
        i = 0
        while i < 100:
            s = s + "x"
            i = i + 1
        j = j + 1


def property_read():
    i = 0
    while i < 4000:
        x = thing.size
        i = i + 1


def property_write():
    i = 0
    while i < 4000:
        thing.size = i
        i = i + 1


def verb_call():
    i = 0
    while i < 4000:
        x = thing.id(i)
        i = i + 1


def verb_statements():
    i = 0
    while i < 4000:
        x = thing.kept(i)
        i = i + 1


def length():
    l = [1, 2, 3]
    i = 0
    while i < 4000:
        x = len(l)
        i = i + 1


def listappend():
    j = 0
    while j < 40:
        l = []
        i = 0
        while i < 100:
            l.append(i)
            i = i + 1
        j = j + 1


def strsub():
    i = 0
    while i < 4000:
        x = "the quick brown fox".replace("o", "0")
        i = i + 1


def create_recycle():
    i = 0
    while i < 4000:
        o = Thing()
        del o
        i = i + 1


def if_else():
    x = 0
    i = 0
    while i < 4000:
        if i % 2 == 0:
            x = x + 1
        else:
            x = x - 1
        i = i + 1


def if_and():
    x = 0
    i = 0
    while i < 4000:
        if i > 0 and i < 2000:
            x = x + 1
        i = i + 1


def choice():
    i = 0
    while i < 4000:
        x = 1 if i < 2000 else 2
        i = i + 1


def long_names():
    result_value = 0
    counter_number = 0
    while counter_number < 4000:
        result_value = result_value + counter_number
        counter_number = counter_number + 1


def typeof():
    x = 0
    i = 0
    while i < 4000:
        if type(i) is int:
            x = i
        i = i + 1


def least():
    x = 0
    i = 0
    while i < 4000:
        x = min(i, 7)
        i = i + 1


def grid():
    m = [[1, 2, 3], [4, 5, 6], [7, 8, 9]]
    x = 0
    i = 0
    while i < 4000:
        x = x + m[i % 3][1]
        i = i + 1


def characters():
    s = "the quick brown fox"
    x = 0
    i = 0
    while i < 4000:
        if s[i % 19] == "o":
            x = i
        i = i + 1


def scatter():
    l = [1, 2]
    i = 0
    while i < 4000:
        a, b = l
        i = i + 1


def many_properties():
    class Thing:
        pass
    thing = Thing()
    for number in range(1, 31):
        setattr(thing, f"property_{number}", number)
    i = 0
    while i < 4000:
        x = thing.property_20
        i = i + 1


def new_list():
    i = 0
    while i < 4000:
        x = [i, 2, 3]
        i = i + 1


def last():
    l = [1, 2, 3, 4, 5]
    i = 0
    while i < 4000:
        x = l[-1]
        i = i + 1


def part():
    l = [1, 2, 3, 4, 5]
    i = 0
    while i < 4000:
        x = l[1:]
        i = i + 1


loop = globals()[{"while": "while_"}.get(sys.argv[1], sys.argv[1].replace("-", "_"))]
for task in range(int(sys.argv[2])):
    loop()
