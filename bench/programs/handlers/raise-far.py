class Refusing:
    def top(self, x):
        return self.second(x) + 1

    def second(self, x):
        return self.third(x) + 1

    def third(self, x):
        return self.last(x) + 1

    def last(self, x):
        if x:
            raise ValueError("No such thing.")
        return 0


refusing = Refusing()


def run(n):
    y = 0
    for i in range(1, n + 1):
        try:
            y = y + refusing.top(i % 2)
        except ValueError as e:
            y = y + len(e.args[0])
    return y
