def run(n):
    y = 0
    for i in range(1, n + 1):
        try:
            x = 10 // (i % 2)
            y = y + x
        except ZeroDivisionError:
            y = y + 1
    return y
