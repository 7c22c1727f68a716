class Holder:
    def __init__(self):
        self._count = 3
        self._limit = 5

    def count(self):
        return self._count

    def limit(self):
        return self._limit


holder = Holder()


def run(n):
    x = 0
    for i in range(1, n + 1):
        x = x + holder.count() + holder.limit()
    return x
