def run(n):
    x = 0
    for i in range(1, n + 1):
        x = x + len(repr([i, "lamp", [1, 2, 3]]))
    return x
