class Digits:
    def group(self, number):
        s = str(number)
        r = ""
        while len(s) > 3:
            r = "," + s[-3:] + r
            s = s[:-3]
        return s + r


digits = Digits()


def run(n):
    x = 0
    for i in range(1, n + 1):
        s = digits.group(1234567 + i)
        x = x + len(s) + int(s[-1])
    return x
