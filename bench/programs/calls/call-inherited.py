class Weighty:
    weight = 2

    def heavier(self, other):
        return self.weight > other


class Furniture(Weighty):
    pass


chair = Furniture()
chair.weight = 700


def run(n):
    o = chair
    x = 0
    for i in range(1, n + 1):
        if o.heavier(i):
            x = x + 1
    return x
