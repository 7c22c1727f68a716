def run(n):
    l = []
    for i in range(1, 21):
        l.append(i)
    x = 0
    for i in range(1, n + 1):
        for v in l:
            x = x + v
    return x
