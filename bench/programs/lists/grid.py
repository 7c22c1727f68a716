def run(n):
    m = [[0, 0, 0, 0], [0, 0, 0, 0], [0, 0, 0, 0], [0, 0, 0, 0]]
    for i in range(1, n + 1):
        r = i % 4
        c = i % 3
        m[r][c] = m[r][c] + i
    return m[1][1]
