def run(n):
    a = [[1, "north"], [2, "south"], [3, "east"]]
    b = [[1, "north"], [2, "south"], [3, "east"]]
    c = [[1, "north"], [2, "south"], [3, "west"]]
    x = 0
    for i in range(1, n + 1):
        if a == b:
            x = x + 1
        if a != c:
            x = x + 2
    return x
