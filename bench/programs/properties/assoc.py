class Pairs:
    def assoc(self, key, l):
        for pair in l:
            if pair[0] == key:
                return pair[1]
        return 0


pairs = Pairs()


def run(n):
    l = [["north", 1], ["south", 2], ["east", 3], ["west", 4], ["up", 5], ["down", 6], ["in", 7], ["out", 8]]
    x = 0
    for i in range(1, n + 1):
        x = x + pairs.assoc("down", l) + pairs.assoc("out", l)
    return x
