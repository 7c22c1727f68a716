class Mapped:
    owner_name = "nobody"

    def __init__(self, owner_name=None):
        if owner_name:
            self.owner_name = owner_name

    def map_prop(self, objects, prop):
        values = []
        for o in objects:
            values.append(getattr(o, prop))
        return values


kind = Mapped()
objects = [Mapped(), Mapped("Frances"), Mapped(), Mapped("Bob"), Mapped()]


def run(n):
    x = 0
    for i in range(1, n + 1):
        x = x + len("".join(kind.map_prop(objects, "owner_name")))
    return x
