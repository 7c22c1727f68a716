class Locking:
    locked = 0

    def read(self, x):
        self.locked = 1
        try:
            return x + 1
        finally:
            self.locked = 0


locking = Locking()


def run(n):
    y = 0
    for i in range(1, n + 1):
        y = y + locking.read(i)
    return y + locking.locked
