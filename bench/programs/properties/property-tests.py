class Queueing:
    size = 0

    def bump(self, n, what):
        self.size = self.size + n % 3
        if what == "cat" and n > 2:
            m = [n, what, self.size]
        else:
            m = []
        return m[2] if len(m) else 0


queueing = Queueing()


def run(n):
    queueing.size = 0
    x = 0
    for i in range(1, n + 1):
        x = x + queueing.bump(i, "cat")
    return x
