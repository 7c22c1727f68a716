from core import Core6

mid_thing = Core6()


def run(n):
    o = mid_thing
    x = 0
    for i in range(1, n + 1):
        x = x + o.description(i) + o.tell_lines(1) + o.check_quota(2)
    return x
