class Lists:
    def find_insert(self, lst, key):
        r = len(lst)
        if r < 8:
            for l in range(r):
                if lst[l] > key:
                    return l
            return r
        l = 0
        r = r - 1
        while r >= l:
            i = (r + l) // 2
            if key < lst[i]:
                r = i - 1
            else:
                l = i + 1
        return l

    def sort(self, lst, keys):
        sorted_lst = []
        sorted_keys = []
        for e in range(len(lst)):
            k = self.find_insert(sorted_keys, keys[e])
            sorted_keys.insert(k, keys[e])
            sorted_lst.insert(k, lst[e])
        return sorted_lst


lists = Lists()


def run(n):
    names = ["oak", "elm", "ash", "fir", "yew", "box", "bay", "fig", "nut", "may", "tea", "sal"]
    keys = [57, 13, 99, 4, 76, 31, 68, 22, 85, 40, 11, 92]
    x = 0
    for i in range(1, n + 1):
        s = lists.sort(names, keys)
        x = x + (s[0] == "fir") + (s[11] == "ash")
    return x
