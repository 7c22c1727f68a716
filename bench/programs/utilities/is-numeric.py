class Numeric:
    def is_numeric(self, s):
        if not s:
            return 0
        for i in range(1 if s[0] == "-" else 0, len(s)):
            if s[i] not in "0123456789":
                return 0
        return s != "-"


numeric = Numeric()


def run(n):
    words = ["-12345", "lamp", "7", "12b"]
    x = 0
    for i in range(1, n + 1):
        x = x + numeric.is_numeric(words[i % 4])
    return x
