def run(n):
    q = []
    for i in range(1, 21):
        q.append(i)
    x = 0
    for i in range(1, n + 1):
        q.append(i)
        x = x + q[0]
        del q[0]
    return x
