class Replacing:
    def replace(self, text, old, new):
        done = ""
        while (i := text.find(old)) >= 0:
            done = done + text[:i] + new
            text = text[i + len(old):]
        return done + text


replacing = Replacing()


def run(n):
    x = 0
    for i in range(1, n + 1):
        x = x + len(replacing.replace("the cat and the dog and the bird", "the", "one"))
    return x
