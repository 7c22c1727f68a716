class Columns:
    def columnize(self, items, count, width=60):
        rows = (len(items) + count - 1) // count
        each = width // count
        lines = []
        for r in range(rows):
            line = ""
            for c in range(count):
                k = r + c * rows
                if k < len(items):
                    item = items[k]
                    while len(item) < each:
                        item = item + "    "
                    line = line + item[:each]
            lines.append(line)
        return lines


columns = Columns()


def run(n):
    names = ["oak", "elm", "ash", "fir", "yew", "box", "bay", "fig", "nut", "may"]
    x = 0
    for i in range(1, n + 1):
        for line in columns.columnize(names, 3):
            x = x + len(line)
    return x
