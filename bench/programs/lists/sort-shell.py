def run(n):
    l = [57, 13, 99, 4, 76, 31, 68, 22, 85, 40, 11, 92, 64, 37, 5, 71, 28, 83, 49, 16]
    length = len(l)
    x = 0
    for k in range(1, n + 1):
        s = l[:]
        gap = length // 2
        while gap > 0:
            for i in range(gap, length):
                v = s[i]
                j = i
                while j >= gap and s[j - gap] > v:
                    s[j] = s[j - gap]
                    j = j - gap
                s[j] = v
            gap = gap // 2
        x = x + s[0] + s[19]
    return x
