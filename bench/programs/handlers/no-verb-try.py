from core import Core6

deaf_thing = Core6()


def run(n):
    o = deaf_thing
    y = 0
    for i in range(1, n + 1):
        try:
            y = y + o.weight(i)
        except AttributeError:
            y = y + 1
    return y
