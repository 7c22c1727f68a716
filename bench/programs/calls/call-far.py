from core import Core6

far_thing = Core6()


def run(n):
    o = far_thing
    x = 0
    for i in range(1, n + 1):
        x = x + o.titlec(i) + o.notify(1)
    return x
