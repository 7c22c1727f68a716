class Queens:
    def place(self, row, size, columns):
        if row > size:
            return 1
        count = 0
        for c in range(1, size + 1):
            free = 1
            for r in range(1, row):
                d = columns[r - 1] - c
                if d == 0 or d == row - r or d == r - row:
                    free = 0
                    break
            if free:
                count = count + self.place(row + 1, size, [*columns, c])
        return count


queens = Queens()


def run(n):
    x = 0
    for i in range(1, n + 1):
        x = x + queens.place(1, 5, [])
    return x
