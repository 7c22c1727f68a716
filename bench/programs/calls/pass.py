class Base:
    def rank(self, a):
        return a


class Middle(Base):
    def rank(self, *args):
        return super().rank(*args) + 1


class Upper(Middle):
    def rank(self, a):
        return super().rank(a) + 2


upper = Upper()


def run(n):
    x = 0
    for i in range(1, n + 1):
        x = x + upper.rank(i)
    return x
