def run(n):
    s = "the quick brown fox jumps over the lazy dog"
    x = 0
    for i in range(1, n + 1):
        x = x + s.find("jumps") + 1 + s.find("cat") + 1 + s.rfind(" ") + 1
    return x
