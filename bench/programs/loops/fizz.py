def run(n):
    x = 0
    for i in range(1, n + 1):
        if i % 3 == 0:
            if i % 5 == 0:
                w = "fizzbuzz"
            else:
                w = "fizz"
        else:
            w = "buzz" if i % 5 == 0 else ""
        x = x + (len(w) if w else i)
    return x
