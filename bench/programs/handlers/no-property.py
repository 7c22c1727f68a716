class Plain:
    weight = 3


plain_thing = Plain()


def run(n):
    o = plain_thing
    y = 0
    for i in range(1, n + 1):
        y = y + getattr(o, "opaque", 1) + getattr(o, "weight", 0)
    return y
