"""A disk with two names: what its calls do, which one fails, and what a crash may leave (docs/reference/script.md, docs/design/server.md)."""


class Disk:
    """The text that main reads as, the texts that a crash may leave in the order in which they entered, and a spare."""

    def __init__(self, text):
        self.main = text
        self.images = [text]
        self.spare = None
        self.calls_left = 0
        self.has_effect = False

    def fail(self, number, has_effect):
        """Lets the call of this number from now on fail, with or without its effect."""
        self.calls_left = number
        self.has_effect = has_effect

    def call(self, name, piece=""):
        """Makes a call, and returns whether it was done."""
        is_due = self.calls_left == 1
        self.calls_left = max(self.calls_left - 1, 0)
        if not is_due or self.has_effect:
            getattr(self, name)(piece)
        return not is_due

    def create_spare(self, _):
        self.spare = ""

    def append(self, piece):
        self.spare += piece

    def sync_spare(self, _):
        pass

    def rename(self, _):
        self.main = self.spare
        self.spare = None
        if self.main not in self.images:
            self.images.append(self.main)

    def sync_names(self, _):
        self.images = [self.main]

    def read_main(self, _):
        pass
