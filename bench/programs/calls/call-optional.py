class Optional:
    def sum(self, a, b=2):
        return a + b


optional = Optional()


def run(n):
    o = optional
    x = 0
    for i in range(1, n + 1):
        x = x + o.sum(i)
        x = x + o.sum(i, 3)
    return x
