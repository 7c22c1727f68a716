def run(n):
    x = 0
    for i in range(1, n + 1):
        s = ""
        for j in range(1, 41):
            s = "x" + s
        x = x + len(s)
    return x
