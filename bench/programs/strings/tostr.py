def run(n):
    x = 0
    for i in range(1, n + 1):
        x = x + len(f"You have {i} coins and {i % 7} stamps.")
    return x
