def run(n):
    x = 12345
    for i in range(1, n + 1):
        x = (x * 171 + 11213) % 53125
    return x
