class Hanoi:
    def carry(self, count, start, to, via):
        if count:
            self.carry(count - 1, start, via, to)
            self.moves = self.moves + 1
            self.carry(count - 1, via, to, start)


hanoi = Hanoi()


def run(n):
    hanoi.moves = 0
    for i in range(1, n + 1):
        hanoi.carry(5, "left", "right", "middle")
    return hanoi.moves
