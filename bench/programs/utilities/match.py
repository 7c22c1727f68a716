class Thing:
    def __init__(self, *aliases):
        self.aliases = list(aliases)


nothing, ambiguous, failed = Thing(), Thing(), Thing()
things = [
    Thing("brass lamp", "lamp"),
    Thing("leather bag", "bag"),
    Thing("wooden chest", "chest"),
    Thing("iron key", "key"),
    Thing("old book", "book"),
    Thing("oak table", "table"),
]


class Match:
    def match(self, subject, objects):
        whole = begun = nothing
        for o in objects:
            if subject in o.aliases:
                if whole is not nothing:
                    return ambiguous
                whole = o
            elif whole is nothing:
                for alias in o.aliases:
                    if alias.find(subject) == 0:
                        begun = o if begun is nothing or begun is o else ambiguous
        return (failed if begun is ambiguous else begun) if whole is nothing else whole


matching = Match()


def run(n):
    objects = things
    x = 0
    for i in range(1, n + 1):
        a = matching.match("key", objects)
        b = matching.match("wood", objects)
        c = matching.match("sword", objects)
        x = x + (a is things[3]) + 2 * (b is things[2]) + 4 * (c is nothing)
    return x
