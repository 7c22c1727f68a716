class Five:
    def five(self, a, b):
        c = a + b
        d = c * 2
        e = d - a
        return e


five = Five()


def run(n):
    o = five
    x = 0
    for i in range(1, n + 1):
        x = x + o.five(i, 7)
    return x
