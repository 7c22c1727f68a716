def run(n):
    l = [57, 13, 99, 4, 76, 31, 68, 22, 85, 40, 11, 92, 64, 37, 5, 71, 28, 83, 49, 16]
    x = 0
    for k in range(1, n + 1):
        s = l[:]
        for i in range(1, len(s)):
            v = s[i]
            j = i - 1
            while j >= 0 and s[j] > v:
                s[j + 1] = s[j]
                j = j - 1
            s[j + 1] = v
        x = x + s[0] + s[19]
    return x
