class Ordering:
    def less(self, a, b):
        return a % 10 < b % 10

    def sort(self, l):
        l = l[:]
        for i in range(1, len(l)):
            x = l[i]
            j = i - 1
            while j >= 0 and self.less(x, l[j]):
                l[j + 1] = l[j]
                j = j - 1
            l[j + 1] = x
        return l


ordering = Ordering()


def run(n):
    l = [57, 13, 99, 4, 76, 31, 68, 22, 85, 40, 11, 92]
    x = 0
    for i in range(1, n + 1):
        s = ordering.sort(l)
        x = x + s[0] + s[11]
    return x
