class Parity:
    def is_even(self, n):
        if n == 0:
            return 1
        return self.is_odd(n - 1)

    def is_odd(self, n):
        if n == 0:
            return 0
        return self.is_even(n - 1)


parity = Parity()


def run(n):
    x = 0
    for i in range(1, n + 1):
        x = x + parity.is_even(20)
    return x
