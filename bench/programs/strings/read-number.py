class Reading:
    def sum(self, s):
        sum = number = 0
        for i in range(len(s)):
            d = "0123456789".find(s[i])
            if d >= 0:
                number = number * 10 + d
            else:
                sum = sum + number
                number = 0
        return sum + number


reading = Reading()


def run(n):
    x = 0
    for i in range(1, n + 1):
        x = x + reading.sum("12, 345 and 6789")
    return x
