class Primes:
    def sieve(self, limit):
        marks = []
        for i in range(1, limit + 1):
            marks.append(1)
        found = []
        for i in range(2, limit + 1):
            if marks[i - 1]:
                found.append(i)
                k = i * i
                while k <= limit:
                    marks[k - 1] = 0
                    k = k + i
        return found


primes = Primes()


def run(n):
    x = 0
    for i in range(1, n + 1):
        x = x + len(primes.sieve(150))
    return x
