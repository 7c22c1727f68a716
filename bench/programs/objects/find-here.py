class Thing:
    def __init__(self, name):
        self.name = name


class Store:
    def __init__(self, *contents):
        self.contents = list(contents)

    def find(self, name):
        for o in self.contents:
            if o.name == name or o.name.startswith(name):
                return o
        return None


table = Thing("oak table")
store = Store(
    Thing("brass lamp"), Thing("leather bag"), Thing("wooden chest"), Thing("iron key"), Thing("old book"), table, Thing("straw hat"), Thing("tin cup")
)


def run(n):
    x = 0
    for i in range(1, n + 1):
        x = x + (store.find("oak table") is table) + (store.find("tin") is not None)
    return x
