class Heavy:
    weight = 1


def heavy(weight=None):
    made = Heavy()
    if weight is not None:
        made.weight = weight
    return made


objects = [heavy(3), heavy(5), heavy(), heavy(7), heavy()]


def run(n):
    things = objects
    x = 0
    for i in range(1, n + 1):
        for o in things:
            x = x + o.weight
    return x
