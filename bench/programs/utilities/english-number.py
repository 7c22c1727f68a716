class Numbers:
    ones = [
        "one", "two", "three", "four", "five", "six", "seven", "eight", "nine", "ten", "eleven", "twelve", "thirteen", "fourteen", "fifteen",
        "sixteen", "seventeen", "eighteen", "nineteen",
    ]
    tens = ["ten", "twenty", "thirty", "forty", "fifty", "sixty", "seventy", "eighty", "ninety"]

    def english_number(self, number):
        if number == 0:
            return "zero"
        elif number < 20:
            return self.ones[number - 1]
        elif number < 100:
            return self.tens[number // 10 - 1] + ("-" + self.ones[number % 10 - 1] if number % 10 else "")
        else:
            rest = number % 100
            return self.ones[number // 100 - 1] + " hundred" + (" and " + self.english_number(rest) if rest else "")


numbers = Numbers()


def run(n):
    x = 0
    for i in range(1, n + 1):
        x = x + len(numbers.english_number(i * 37 % 1000))
    return x
