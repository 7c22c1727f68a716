def run(n):
    x = 0
    for j in range(1, n + 1):
        l = []
        for i in range(1, 51):
            l.append(i)
        for v in l:
            x = x + v
    return x
