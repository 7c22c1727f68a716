class Capital:
    small = "abcdefghijklmnopqrstuvwxyz"
    large = "ABCDEFGHIJKLMNOPQRSTUVWXYZ"

    def capitalize(self, string):
        if string and (i := self.small.find(string[0])) >= 0:
            string = self.large[i] + string[1:]
        return string


capital = Capital()


def run(n):
    names = ["oak table", "Brass lamp"]
    x = 0
    for i in range(1, n + 1):
        if capital.capitalize(names[i % 2]) == "Oak table":
            x = x + 1
    return x
