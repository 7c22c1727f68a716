class Strings:
    def from_list(self, thelist, separator=""):
        if separator == "":
            return "".join(str(elt) for elt in thelist)
        elif thelist:
            result = str(thelist[0])
            for elt in thelist[1:]:
                result = f"{result}{separator}{elt}"
            return result
        else:
            return ""


strings = Strings()


def run(n):
    l = ["the", "quick", "brown", "fox", "jumps", "over", "the", "lazy", "dog"]
    x = 0
    for i in range(1, n + 1):
        x = x + len(strings.from_list(l, ", "))
    return x
