def run(n):
    y = z = 0
    for i in range(1, n + 1):
        try:
            try:
                x = 10 // (i % 2)
                y = y + x
            finally:
                z = z + 1
        except ZeroDivisionError:
            y = y + 1
    return y + z
