class English:
    def english_list(self, things, nothingstr="nothing", andstr=" and ", commastr=", ", finalcommastr=","):
        nthings = len(things)
        if nthings == 0:
            return nothingstr
        elif nthings == 1:
            return str(things[0])
        elif nthings == 2:
            return f"{things[0]}{andstr}{things[1]}"
        else:
            ret = ""
            for k in range(nthings - 1):
                if k == nthings - 2:
                    commastr = finalcommastr
                ret = f"{ret}{things[k]}{commastr}"
            return f"{ret}{andstr}{things[nthings - 1]}"


english = English()


def run(n):
    one = ["a lamp"]
    two = ["a lamp", "a bag"]
    five = ["a lamp", "a bag", "a chest", "a key", "a book"]
    x = 0
    for i in range(1, n + 1):
        x = x + len(english.english_list(one))
        x = x + len(english.english_list(two))
        x = x + len(english.english_list(five))
    return x
