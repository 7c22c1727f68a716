class Summing:
    def sum(self, l):
        return l[0] + self.sum(l[1:]) if l else 0


summing = Summing()


def run(n):
    l = []
    for i in range(1, 21):
        l.append(i)
    x = 0
    for i in range(1, n + 1):
        x = x + summing.sum(l)
    return x
