class Quick:
    def sort(self, l):
        if len(l) < 2:
            return l
        pivot = l[0]
        low = []
        high = []
        for v in l[1:]:
            if v < pivot:
                low.append(v)
            else:
                high.append(v)
        return [*self.sort(low), pivot, *self.sort(high)]


quick = Quick()


def run(n):
    l = [57, 13, 99, 4, 76, 31, 68, 22, 85, 40, 11, 92, 64, 37, 5, 71, 28, 83, 49, 16]
    x = 0
    for k in range(1, n + 1):
        s = quick.sort(l)
        x = x + s[0] + s[19]
    return x
