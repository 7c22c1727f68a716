def run(n):
    s = "the quick brown fox jumps over the lazy dog"
    x = 0
    for i in range(1, n + 1):
        for j in range(len(s)):
            c = s[j]
            if c == "a" or c == "e" or c == "o":
                x = x + 1
    return x
