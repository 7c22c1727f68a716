def run(n):
    a = b = c = d = e = 0
    for i in range(1, n + 1):
        k = i % 7
        if k == 0:
            a = a + 1
        elif k == 1:
            b = b + 1
        elif k < 3:
            c = c + 1
        elif k == 5 and i % 2:
            d = d + 1
        else:
            e = e + 1
    return a + 10 * b + 100 * c + 1000 * d + 10000 * e
