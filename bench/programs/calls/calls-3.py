class Taking:
    def take(self, a, b, c):
        return a


taking = Taking()


def run(n):
    o = taking
    x = 0
    for i in range(1, n + 1):
        x = x + o.take(i, 2, 3)
    return x
