class Made:
    weight = 1
    made = 0

    def __init__(self):
        self.weight = 2

    def recycle(self):
        Made.made = Made.made + self.weight


def run(n):
    Made.made = 0
    for i in range(1, n + 1):
        o = Made()
        o.name = "thing"
        o.recycle()
        del o
    return Made.made
