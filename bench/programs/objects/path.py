class Site:
    def distance(self, goal):
        seen = [self]
        steps = [0]
        at = 0
        while at < len(seen):
            if seen[at] is goal:
                return steps[at]
            for next in seen[at].exits:
                if next not in seen:
                    seen.append(next)
                    steps.append(steps[at] + 1)
            at = at + 1
        return -1


sites = [Site() for _ in range(9)]
for place, exits in enumerate([(2, 3), (1, 4), (1, 5, 6), (2, 5), (3, 4, 7), (3,), (5, 8), (7,)], 1):
    sites[place].exits = [sites[number] for number in exits]


def run(n):
    x = 0
    for i in range(1, n + 1):
        x = x + sites[1].distance(sites[8])
    return x
