class Pad:
    def space(self, count, fill=" "):
        while len(fill) < count:
            fill = fill + fill
        return fill[:count]

    def left(self, text, width):
        text = str(text)
        length = len(text)
        return text + self.space(width - length) if length < width else text

    def right(self, text, width):
        text = str(text)
        length = len(text)
        return self.space(width - length) + text if length < width else text


padding = Pad()


def run(n):
    x = 0
    for i in range(1, n + 1):
        row = padding.left("brass lamp", 18) + padding.right(i, 7)
        x = x + len(row)
    return x
