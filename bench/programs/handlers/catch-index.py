def run(n):
    l = [1, 2, 3]
    y = 0
    for i in range(1, n + 1):
        try:
            x = l[1 + i % 2 * 2]
        except IndexError:
            x = 7
        y = y + x
    return y
