def run(n):
    x = 0
    for i in range(1, n + 1):
        for j in range(1, 11):
            for k in range(1, 11):
                x = x + j * k
    return x
