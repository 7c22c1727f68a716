class Idle:
    def none(self):
        pass


idle = Idle()


def run(n):
    o = idle
    for i in range(1, n + 1):
        o.none()
    return n
