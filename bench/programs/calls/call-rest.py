class Rest:
    def rest(self, a, b=2, *c):
        return c


rest = Rest()


def run(n):
    l = [1, 2, 3, 4]
    x = 0
    for i in range(1, n + 1):
        x = x + len(rest.rest(*l))
    return x
