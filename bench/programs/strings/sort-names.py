def run(n):
    l = ["walnut", "oak", "birch", "elm", "maple", "cedar", "ash", "willow"]
    x = 0
    for k in range(1, n + 1):
        s = l[:]
        for i in range(1, len(s)):
            for j in range(len(s) - i):
                if s[j + 1] < s[j]:
                    t = s[j]
                    s[j] = s[j + 1]
                    s[j + 1] = t
        x = x + len(s[0]) + len(s[7])
    return x
