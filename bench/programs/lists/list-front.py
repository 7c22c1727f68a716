def run(n):
    x = 0
    for j in range(1, n + 1):
        l = []
        for i in range(1, 51):
            l.insert(0, i)
        x = x + l[0] + l[-1]
    return x
