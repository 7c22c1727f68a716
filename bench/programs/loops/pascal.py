def run(n):
    x = 0
    for i in range(1, n + 1):
        row = [1]
        for k in range(1, 10):
            next = [1]
            for j in range(1, len(row)):
                next.append(row[j - 1] + row[j])
            next.append(1)
            row = next
        x = x + row[4]
    return x
