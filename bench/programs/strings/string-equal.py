def run(n):
    words = ["take", "drop", "give", "throw"]
    x = 0
    for i in range(1, n + 1):
        w = words[i % 4]
        if w == "take":
            x = x + 1
        elif w == "drop":
            x = x + 2
        elif w == "give":
            x = x + 3
        elif w == "throw":
            x = x + 4
    return x
