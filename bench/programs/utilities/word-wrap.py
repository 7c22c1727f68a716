class Wrap:
    def wrap(self, text, width):
        lines = []
        while len(text) > width:
            cut = text[:width + 1].rfind(" ")
            if cut >= 0:
                lines.append(text[:cut])
                text = text[cut + 1:]
            else:
                lines.append(text[:width])
                text = text[width:]
        return [*lines, text]


wrapping = Wrap()


def run(n):
    text = "You see a large room with a high ceiling, an oak table and six chairs. On the north wall hangs a portrait of an old man with a beard."
    x = 0
    for i in range(1, n + 1):
        for line in wrapping.wrap(text, 30):
            x = x + len(line)
    return x
