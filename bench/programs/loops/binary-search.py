class Searching:
    def find(self, l, key):
        low = 1
        high = len(l)
        while low <= high:
            middle = (low + high) // 2
            if l[middle - 1] < key:
                low = middle + 1
            elif l[middle - 1] > key:
                high = middle - 1
            else:
                return middle
        return 0


searching = Searching()


def run(n):
    l = []
    for i in range(1, 101):
        l.append(3 * i)
    x = 0
    for i in range(1, n + 1):
        x = x + searching.find(l, i * 7 % 300)
    return x
