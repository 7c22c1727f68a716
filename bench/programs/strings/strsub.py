def run(n):
    x = 0
    for i in range(1, n + 1):
        s = "You take %d from %i.".replace("%d", "the lamp")
        s = s.replace("%i", "the chest")
        s = s.replace("%n", "Frances")
        x = x + len(s)
    return x
