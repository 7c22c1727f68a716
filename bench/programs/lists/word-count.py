def run(n):
    l = ["the", "cat", "and", "the", "dog", "and", "the", "bird", "saw", "a", "cat", "and", "a", "dog", "in", "the", "tree", "by", "the", "lake"]
    x = 0
    for i in range(1, n + 1):
        words = []
        counts = []
        for w in l:
            if w in words:
                k = words.index(w)
                counts[k] = counts[k] + 1
            else:
                words.append(w)
                counts.append(1)
        x = x + counts[0] + len(words)
    return x
