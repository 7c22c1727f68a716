class Counter:
    count = 0

    def tally(self, n):
        self.count = 0
        for i in range(1, n + 1):
            self.count = self.count + 1
        return self.count


counter = Counter()


def run(*args):
    return counter.tally(*args)
