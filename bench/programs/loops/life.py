class Life:
    def step(self, board):
        size = len(board)
        next = []
        for r in range(size):
            row = []
            for c in range(size):
                count = 0
                for dr in range(max(0, r - 1), min(size - 1, r + 1) + 1):
                    for dc in range(max(0, c - 1), min(size - 1, c + 1) + 1):
                        count = count + board[dr][dc]
                row.append(count == 3 or (count == 4 and board[r][c]))
            next.append(row)
        return next


life = Life()


def run(n):
    board = [[0, 1, 0, 0, 0, 0], [0, 0, 1, 0, 0, 0], [1, 1, 1, 0, 0, 0], [0, 0, 0, 0, 0, 0], [0, 0, 0, 0, 1, 1], [0, 0, 0, 0, 1, 1]]
    for i in range(1, n + 1):
        board = life.step(board)
    x = 0
    for row in board:
        for cell in row:
            x = 2 * x % 10007 + cell
    return x
