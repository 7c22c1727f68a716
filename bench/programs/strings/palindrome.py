class BothEnds:
    def is_palindrome(self, s):
        i = 0
        j = len(s) - 1
        while i < j:
            if s[i] != s[j]:
                return 0
            i = i + 1
            j = j - 1
        return 1


both_ends = BothEnds()


def run(n):
    x = 0
    for i in range(1, n + 1):
        x = x + both_ends.is_palindrome("amanaplanacanalpanama")
    return x
