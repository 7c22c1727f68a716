class Fibonacci:
    def fib(self, n):
        if n < 2:
            return n
        return self.fib(n - 1) + self.fib(n - 2)


fibonacci = Fibonacci()


def run(n):
    x = 0
    for i in range(1, n + 1):
        x = x + fibonacci.fib(10)
    return x
