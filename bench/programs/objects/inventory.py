class Bearer:
    def __init__(self):
        self.contents = []

    def inventory(self):
        if not self.contents:
            return ["You are empty-handed."]
        lines = ["Carrying:"]
        total = 0
        for o in self.contents:
            lines.append(f"  {o.inventory_line()} ({o.weight})")
            total = total + o.weight
        return [*lines, f"  {total} in all"]


class Borne:
    weight = 1
    worn = 0

    def __init__(self, name, weight=None, worn=None):
        self.name = name
        if weight:
            self.weight = weight
        if worn:
            self.worn = worn

    def inventory_line(self):
        return self.name + (" (worn)" if self.worn else "")


bearer = Bearer()
bearer.contents = [Borne("rope"), Borne("torch", 3), Borne("scarf", worn=1), Borne("map"), Borne("bread", 2)]


def run(n):
    x = 0
    for i in range(1, n + 1):
        for line in bearer.inventory():
            x = x + len(line)
    return x
