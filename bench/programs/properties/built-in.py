class Thing:
    def __init__(self, name):
        self.name = name
        self.location = None
        self.contents = []


shelf = Thing("shelf")
cup = Thing("cup")
cup.location = shelf
shelf.contents.append(cup)


def run(n):
    o = cup
    x = 0
    for i in range(1, n + 1):
        place = o.location
        x = x + len(place.contents) + len(o.name) + (place.name == "shelf")
    return x
