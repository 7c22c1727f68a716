class Roman:
    values = [100, 90, 50, 40, 10, 9, 5, 4, 1]
    letters = ["C", "XC", "L", "XL", "X", "IX", "V", "IV", "I"]

    def letters_of(self, number):
        s = ""
        for i in range(len(self.values)):
            while number >= self.values[i]:
                s = s + self.letters[i]
                number = number - self.values[i]
        return s


roman = Roman()


def run(n):
    x = 0
    for i in range(1, n + 1):
        x = x + len(roman.letters_of(i))
    return x
