class Options:
    def __init__(self):
        self.width = 79
        self.margin = 4


options = Options()


def run(n):
    x = 0
    for i in range(1, n + 1):
        x = x + options.width - options.margin
    return x
