class Lists:
    def map_arg(self, object, verb, data):
        results = []
        for elt in data:
            results.append(getattr(object, verb)(elt))
        return results

    def double(self, x):
        return 2 * x


lists = Lists()


def run(n):
    l = [1, 2, 3, 4, 5, 6, 7, 8, 9, 10]
    x = 0
    for i in range(1, n + 1):
        r = lists.map_arg(lists, "double", l)
        x = x + r[9]
    return x
