def run(n):
    x = 0
    for i in range(1, n + 1):
        k = 0
        found = False
        while not found:
            k = k + 1
            if k % 2:
                continue
            for j in range(1, 4):
                if k * k + j > 200 + i:
                    found = True
                    break
        x = x + k
    return x
