class Board:
    def __init__(self):
        self.cells = [0] * 10


board = Board()


def run(n):
    b = board
    for i in range(10):
        b.cells[i] = 0
    for i in range(1, n + 1):
        k = i % 10
        b.cells[k] = b.cells[k] + i
    return b.cells[2]
