class Named:
    def first(self, a):
        return a + 1

    def second(self, a):
        return a + 2

    def third(self, a):
        return a + 3


named = Named()


def run(n):
    names = ["first", "second", "third"]
    x = 0
    for i in range(1, n + 1):
        for name in names:
            x = x + getattr(named, name)(i)
    return x
