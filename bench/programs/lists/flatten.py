class Flattening:
    def flatten(self, l):
        flat = []
        for e in l:
            if isinstance(e, list):
                flat.extend(self.flatten(e))
            else:
                flat.append(e)
        return flat


flattening = Flattening()


def run(n):
    l = [1, [2, [3, 4], 5], [6, 7], [[8], 9], 10]
    x = 0
    for i in range(1, n + 1):
        x = x + len(flattening.flatten(l))
    return x
