from core import Core1

mute_thing = Core1()


def run(n):
    o = mute_thing
    y = 0
    for i in range(1, n + 1):
        weight = getattr(o, "weight", None)
        titlec = getattr(o, "titlec", None)
        y = y + (weight(i) if weight else 1) + (titlec(i) if titlec else 0)
    return y
