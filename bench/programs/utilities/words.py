class Words:
    def words(self, line):
        words = []
        word = ""
        quoted = False
        for i in range(len(line)):
            c = line[i]
            if c == "'":
                quoted = not quoted
            elif c == " " and not quoted:
                if word:
                    words.append(word)
                    word = ""
            else:
                word = word + c
        return [*words, word] if word else words


word_utils = Words()


def run(n):
    x = 0
    for i in range(1, n + 1):
        x = x + len(word_utils.words("put 'the old lamp' on table"))
    return x
