class Pronouns:
    ps = "she"
    po = "her"
    pp = "hers"


pronouns = Pronouns()


def run(n):
    o = pronouns
    names = ["ps", "po", "pp"]
    x = 0
    for i in range(1, n + 1):
        for name in names:
            x = x + len(getattr(o, name))
    return x
