class Seen:
    description_ = ""
    hidden = 0

    def __init__(self, name, place=None):
        self.name = name
        if place:
            place.contents.append(self)

    def title(self):
        return self.name

    def description(self):
        return self.description_


class Player:
    def __init__(self):
        self.output = []

    def tell(self, *args):
        notify(self, "".join(args))


def notify(who, line):
    who.output.append(line)


def valid(o):
    return o is not None


player = Player()


class Room(Seen):
    dark = 0

    def __init__(self, name):
        super().__init__(name)
        self.contents = []

    def look_self(self, brief=0):
        player.tell(self.title())
        if not brief:
            player.tell(self.description())
        if not self.dark:
            self.tell_contents([o for o in self.contents if o is not player])

    def tell_contents(self, things):
        names = []
        for o in things:
            if valid(o) and not o.hidden:
                names.append("a " + o.title())
        if names:
            line = "You see " + names[0]
            for k in range(1, len(names)):
                line = line + (" and " if k == len(names) - 1 else ", ") + names[k]
            player.tell(line, " here.")


parlour = Room("parlour")
parlour.description_ = "A quiet parlour with a fireplace."
for name in ["clock", "sofa", "carpet", "statue", "spider", "vase", "piano", "candle", "basket", "cat"]:
    o = Seen(name, parlour)
    if name == "spider":
        o.hidden = 1


def run(n):
    player.output = []
    for i in range(1, n + 1):
        parlour.look_self()
    return n
