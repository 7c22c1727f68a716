class Cipher:
    source = "abcdefghijklmnopqrstuvwxyz"
    to = "nopqrstuvwxyzabcdefghijklm"

    def rot13(self, s):
        s = list(s)
        for i in range(len(s)):
            k = self.source.find(s[i])
            if k >= 0:
                s[i] = self.to[k]
        return "".join(s)


cipher = Cipher()


def run(n):
    s = "the quick brown fox!"
    for i in range(1, n + 1):
        s = cipher.rot13(s)
    return s
