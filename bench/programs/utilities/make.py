class Lists:
    def make(self, n, elt=0):
        if n < 0:
            raise ValueError(n)
        ret = []
        build = [elt]
        while True:
            if n % 2:
                ret = ret + build
            n = n // 2
            if n:
                build = build + build
            else:
                return ret


lists = Lists()


def run(n):
    x = 0
    for i in range(1, n + 1):
        x = x + len(lists.make(37))
    return x
