def run(n):
    l = ["north", "south", "east", "west", "up", "down", "in", "out", "northeast", "northwest", "southeast", "southwest"]
    x = 0
    for i in range(1, n + 1):
        if "southeast" in l:
            x = x + 1
        if not ("nowhere" in l):
            x = x + 2
    return x
