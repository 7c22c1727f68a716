class Far1:
    home = 1
    object_match_failed_msgs = 3


class Far2(Far1):
    take_failed_msg = "You can't."
    take_succeeded_msg = "You take it."


class Far3(Far2):
    drop_failed_msg = "You can't."
    drop_succeeded_msg = "You drop it."


class Far4(Far3):
    opened = 0
    opaque = 1


class Far5(Far4):
    key = 0


class Far6(Far5):
    text = ["one"]


far_6 = Far6()


def run(n):
    o = far_6
    x = 0
    for i in range(1, n + 1):
        x = x + o.object_match_failed_msgs
    return x
