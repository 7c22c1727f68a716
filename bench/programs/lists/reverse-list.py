class Reversing:
    def reverse(self, l):
        r = []
        i = len(l)
        while i:
            r.append(l[i - 1])
            i = i - 1
        return r


reversing = Reversing()


def run(n):
    l = []
    for i in range(1, 21):
        l.append(i)
    x = 0
    for i in range(1, n + 1):
        l = reversing.reverse(l)
        x = x + l[0]
    return x
