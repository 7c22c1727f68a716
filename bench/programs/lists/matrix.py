class Matrices:
    def product(self, a, b):
        size = len(a)
        c = []
        for i in range(size):
            row = []
            for j in range(size):
                sum = 0
                for k in range(size):
                    sum = sum + a[i][k] * b[k][j]
                row.append(sum)
            c.append(row)
        return c


matrices = Matrices()


def run(n):
    a = [[1, 2, 3, 4], [5, 6, 7, 8], [9, 10, 11, 12], [13, 14, 15, 16]]
    b = [[2, 0, 1, 0], [0, 2, 0, 1], [1, 0, 2, 0], [0, 1, 0, 2]]
    x = 0
    for i in range(1, n + 1):
        c = matrices.product(a, b)
        x = x + c[1][2]
    return x
