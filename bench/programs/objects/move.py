class Place:
    def __init__(self):
        self.contents = []
        self.visits = 0

    def accept(self, what):
        return what is not self

    def enterfunc(self, what):
        self.visits = self.visits + 1

    def exitfunc(self, what):
        self.visits = self.visits + 2


class Thing:
    def __init__(self, place):
        self.location = place
        place.contents.append(self)


def move(what, to):
    if not to.accept(what):
        raise ValueError("E_NACC")
    place = to
    while place is not None:
        if place is what:
            raise ValueError("E_RECMOVE")
        place = getattr(place, "location", None)
    old = what.location
    old.contents.remove(what)
    to.contents.append(what)
    what.location = to
    old.exitfunc(what)
    to.enterfunc(what)


hall, attic = Place(), Place()
ball, stool = Thing(hall), Thing(hall)


def run(n):
    hall.visits = attic.visits = 0
    for i in range(1, n + 1):
        move(ball, attic)
        move(ball, hall)
    return hall.visits + 1000 * attic.visits
