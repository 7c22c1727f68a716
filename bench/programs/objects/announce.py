class Listening:
    def __init__(self):
        self.heard = 0
        self.gagged = []

    def tell(self, caller, *args):
        if caller not in self.gagged:
            self.heard = self.heard + len("".join(args))


class Square:
    def __init__(self):
        self.contents = [Listening() for _ in range(10)]

    def announce(self, who, *text):
        for o in [o for o in self.contents if o is not who]:
            o.tell(self, *text)


square = Square()


def run(n):
    first, fifth = square.contents[0], square.contents[4]
    first.heard = fifth.heard = 0
    for i in range(1, n + 1):
        square.announce(first, "Frances", " says, \"", "Good evening.", "\"")
    return fifth.heard + first.heard
