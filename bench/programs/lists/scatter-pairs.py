def run(n):
    l = [[1, 2], [3, 4], [5, 6], [7, 8], [9, 10]]
    x = 0
    for i in range(1, n + 1):
        for pair in l:
            a, b = pair
            x = x + a * b
    return x
