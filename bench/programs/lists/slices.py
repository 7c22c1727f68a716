def run(n):
    l = []
    for i in range(1, 11):
        l.append(i)
    x = 0
    for i in range(1, n + 1):
        k = i % 10
        m = l[k:] + l[:k]
        x = x + m[0] + m[1:4][1]
    return x
