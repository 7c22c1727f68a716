class Strings:
    def explode(self, subject, breakit=" "):
        breakit = breakit[0]
        subject = subject + breakit
        parts = []
        while subject:
            i = subject.find(breakit)
            if i > 0:
                parts.append(subject[:i])
            subject = subject[i + 1:]
        return parts


strings = Strings()


def run(n):
    x = 0
    for i in range(1, n + 1):
        x = x + len(strings.explode("the quick brown fox jumps over the lazy dog"))
    return x
