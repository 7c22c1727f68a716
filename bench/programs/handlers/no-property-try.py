class Bare:
    weight = 3


bare_thing = Bare()


def run(n):
    o = bare_thing
    y = 0
    for i in range(1, n + 1):
        try:
            y = y + o.opaque
        except AttributeError:
            y = y + 1
    return y
