def run(n):
    y = 0
    for i in range(1, n + 1):
        try:
            x = 100 // i
            y = y + x
        except ZeroDivisionError:
            y = y + 1
    return y
