class Merging:
    def sort(self, l):
        length = len(l)
        if length < 2:
            return l
        half = length // 2
        return self.merge(self.sort(l[:half]), self.sort(l[half:]))

    def merge(self, a, b):
        la = len(a)
        lb = len(b)
        r = []
        i = j = 0
        while i < la and j < lb:
            if a[i] <= b[j]:
                r.append(a[i])
                i = i + 1
            else:
                r.append(b[j])
                j = j + 1
        return [*r, *a[i:], *b[j:]]


merging = Merging()


def run(n):
    l = [57, 13, 99, 4, 76, 31, 68, 22, 85, 40, 11, 92, 64, 37, 5, 71, 28, 83, 49, 16]
    x = 0
    for k in range(1, n + 1):
        s = merging.sort(l)
        x = x + s[0] + s[19]
    return x
