class Mailbox:
    def receive(self, sender, subject, when):
        self.messages.append([when, sender, subject, ["Hello.", "Goodbye."]])
        if len(self.messages) > 10:
            del self.messages[0]

    def count_new(self):
        count = 0
        for message in self.messages:
            when, sender, subject, text = message
            if when > self.last_read and sender != "nobody":
                count = count + 1
        return count


mailbox = Mailbox()


def run(n):
    b = mailbox
    b.messages = []
    b.last_read = 0
    x = 0
    for i in range(1, n + 1):
        b.receive("Frances", "tea", i)
        b.last_read = i - 5
        x = x + b.count_new()
    return x
