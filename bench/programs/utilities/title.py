class Titled:
    prefix = ""

    def __init__(self, name, prefix=None):
        self.name = name
        if prefix:
            self.prefix = prefix

    def title(self):
        return self.name


class Holder(Titled):
    def title(self):
        return self.prefix + super().title()


things = [
    Titled("titled_1"), Titled("titled_2"), Titled("titled_3"), Holder("titled_4", "old "), Titled("titled_5"),
    Titled("titled_6"), Titled("titled_7"), Holder("titled_8", "new "), Titled("titled_9"), Titled("titled_0"),
]


def run(n):
    x = 0
    for i in range(1, n + 1):
        for o in things:
            x = x + len(o.title())
    return x
