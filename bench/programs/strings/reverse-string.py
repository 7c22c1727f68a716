class Mirror:
    def reverse(self, s):
        r = ""
        for i in range(len(s)):
            r = s[i] + r
        return r


mirror = Mirror()


def run(n):
    s = "the quick brown fox!"
    for i in range(1, n + 1):
        s = mirror.reverse(s)
    return s
