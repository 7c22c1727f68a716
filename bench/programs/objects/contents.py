class Load:
    weight = 1

    def __init__(self, place=None, weight=None):
        self.contents = []
        if weight:
            self.weight = weight
        if place:
            place.contents.append(self)

    def load(self):
        sum = self.weight
        for o in self.contents:
            sum = sum + o.load()
        return sum


big_chest = Load()
small_chest = Load(big_chest)
purse = Load(small_chest)
coins = [Load(purse), Load(purse, 2)]
cloak = Load(big_chest, 5)
boots = Load(big_chest)


def run(n):
    x = 0
    for i in range(1, n + 1):
        x = x + big_chest.load()
    return x
