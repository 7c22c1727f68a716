def run(n):
    y = 0
    for i in range(1, n + 1):
        try:
            x = 10 // (i % 2)
        except ZeroDivisionError:
            x = 1
        y = y + x
    return y
