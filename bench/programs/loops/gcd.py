class Divisors:
    def gcd(self, a, b):
        while b:
            t = a % b
            a = b
            b = t
        return a


divisors = Divisors()


def run(n):
    x = 0
    for i in range(1, n + 1):
        x = x + divisors.gcd(1071 + i, 462)
    return x
