class SetUtils:
    def union(self, set, other):
        set = set[:]
        for e in other:
            if e not in set:
                set.append(e)
        return set

    def intersection(self, set, other):
        both = []
        for e in set:
            if e in other:
                both.append(e)
        return both

    def difference(self, set, other):
        set = set[:]
        for e in other:
            if e in set:
                set.remove(e)
        return set


set_utils = SetUtils()


def run(n):
    a = [1, 2, 3, 4, 5, 6, 7, 8, 9, 10]
    b = [2, 4, 6, 8, 10, 12, 14, 16, 18, 20]
    x = 0
    for i in range(1, n + 1):
        x = x + len(set_utils.union(a, b)) + len(set_utils.intersection(a, b)) + len(set_utils.difference(a, b))
    return x
