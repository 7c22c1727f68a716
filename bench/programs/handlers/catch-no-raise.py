def run(n):
    y = 0
    for i in range(1, n + 1):
        try:
            x = 100 // i
        except ZeroDivisionError:
            x = 0
        y = y + x
    return y
