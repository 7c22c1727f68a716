class Filter:
    def filter(self, l):
        r = []
        for x in l:
            if self.wanted(x):
                r.append(x)
        return r

    def wanted(self, x):
        return x % 3 == 0


filters = Filter()


def run(n):
    l = []
    for i in range(1, 51):
        l.append(i)
    x = 0
    for i in range(1, n + 1):
        x = x + len(filters.filter(l))
    return x
