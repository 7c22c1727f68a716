def run(n):
    x = 0
    for i in range(1, n + 1):
        k = i
        steps = 0
        while k != 1:
            if k % 2 == 0:
                k = k // 2
            else:
                k = 3 * k + 1
            steps = steps + 1
        x = x + steps
    return x
