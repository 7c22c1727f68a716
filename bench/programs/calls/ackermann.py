class Ackermann:
    def a(self, m, n):
        if m == 0:
            return n + 1
        elif n == 0:
            return self.a(m - 1, 1)
        else:
            return self.a(m - 1, self.a(m, n - 1))


ackermann = Ackermann()


def run(n):
    x = 0
    for i in range(1, n + 1):
        x = x + ackermann.a(2, 2)
    return x
