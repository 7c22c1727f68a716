class Trim:
    def trim(self, string, space=" "):
        length = len(string)
        i = 0
        while i < length and string[i] == space:
            i = i + 1
        j = length - 1
        while j > i and string[j] == space:
            j = j - 1
        return string[i:j + 1]


trimming = Trim()


def run(n):
    x = 0
    for i in range(1, n + 1):
        x = x + len(trimming.trim("   the old lamp  "))
    return x
