class Notice:
    text = [
        "Welcome to the hall.", "", "Please wipe your feet.", "Do not feed the cat.", "Supper is at six.", "", "The lamp is lit at night.", "Thank you.",
    ]

    def show(self, who):
        number = 0
        for line in self.text:
            number = number + 1
            notify(who, f"{number}: {line}")
        return number


class Player:
    pass


def notify(who, line):
    who.output.append(line)


notice, player = Notice(), Player()


def run(n):
    player.output = []
    x = 0
    for i in range(1, n + 1):
        x = x + notice.show(player)
    return x
