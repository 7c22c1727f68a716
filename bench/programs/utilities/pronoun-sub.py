class Gender:
    def pronoun_sub(self, text, who, thing):
        done = ""
        while 0 <= (i := text.find("%")) < len(text) - 1:
            s = text[i + 1]
            if s == "%":
                sub = "%"
            elif s == "n":
                sub = who.title
            elif s == "d":
                sub = thing.title
            elif s in ["s", "o", "p", "q", "r"]:
                sub = getattr(who, ["ps", "po", "pp", "pq", "pr"][["s", "o", "p", "q", "r"].index(s)])
            else:
                sub = "%" + s
            done = done + text[:i] + sub
            text = text[i + 2:]
        return done + text


class Who:
    title = "Frances"
    ps = "she"
    po = "her"
    pp = "her"
    pq = "hers"
    pr = "herself"


class Thing:
    title = "the lamp"


gender, who, thing = Gender(), Who(), Thing()


def run(n):
    x = 0
    for i in range(1, n + 1):
        x = x + len(gender.pronoun_sub("%n lifts %d over %p head, and %s hurts %r.", who, thing))
    return x
