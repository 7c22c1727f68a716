class Thing:
    def __init__(self, parent):
        self.parent = parent


def valid(what):
    return what is not None


class Kinds(Thing):
    def isa(self, what, kind):
        while valid(what):
            if what is kind:
                return 1
            what = what.parent
        return 0


kind_1 = Thing(None)
kind_5 = Thing(Thing(Thing(Thing(kind_1))))
kinds = Kinds(None)


def run(n):
    x = 0
    for i in range(1, n + 1):
        x = x + kinds.isa(kind_5, kind_1) + kinds.isa(kind_5, kinds)
    return x
