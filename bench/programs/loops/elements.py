def run(n):
    l = []
    for i in range(1, 101):
        l.append(i)
    i = 0
    while i < n:
        l[i % 100] = l[i % 50] + 1
        i = i + 1
    return l[6]
