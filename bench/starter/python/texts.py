"""Holds the verbs of $string, $match and $time that some commands run, as methods."""

import task
from commands import AMBIGUOUS, FAILED


class Strings:
    """Strings."""

    def join(self, parts, sep=" "):
        return sep.join(map(str, parts))

    def past_blanks(self, text, start):
        while start < len(text) and text[start] == " ":
            start = start + 1
        return start

    def english(self, parts, none="nothing"):
        n = len(parts)
        if n == 0:
            return none
        if n == 1:
            return str(parts[0])
        return f"{', '.join(map(str, parts[:n - 1]))} and {parts[n - 1]}"

    def right(self, text, width, fill=" "):
        text = str(text)
        while len(text) < width:
            text = fill + text
        return text

    def the(self, name):
        if name and name[0] in "abcdefghijklmnopqrstuvwxyz" and not name.startswith(("the ", "a ", "an ", "some ")):
            return "the " + name
        return name

    def wrap(self, text, width=None):
        if width is None:
            width = task.player.linelength if task.player is not None else 78
        if len(text) <= width and width <= 20000:
            return [text]
        last = min(20000, len(text))
        loose = text.find("  ", 0, last) >= 0
        start = 0
        lines = []
        while last - start > width:
            i = text.rfind(" ", start, start + width + 1)
            if i > start:
                lines.append(text[start:i])
                start = i + 1
                if loose and start < last and text[start] == " ":
                    start = self.past_blanks(text, start)
            else:
                lines.append(text[start:start + width])
                start = start + width
        lines.append(text[start:last])
        return lines if last == len(text) else [*lines, f"({len(text) - last} more characters)"]

    def lines(self, value):
        if isinstance(value, str):
            return self.wrap(value) if value else []
        if not isinstance(value, list):
            return [repr(value)]
        lines = []
        for v in value:
            lines += self.wrap(str(v))
            if len(lines) > 200:
                return [*lines[:200], ".."]
        return lines

    def names(self, things):
        names = []
        for o in things[:100] if len(things) > 100 else things:
            name = o.name
            if len(name) > 60:
                name = name[:60] + ".."
            names.append(name)
        return [*names, f"{len(things) - 100} more"] if len(things) > 100 else names

    def flow(self, head, names):
        lines = []
        width = task.player.linelength if task.player is not None else 78
        line = head
        for n in names:
            longer = f"{line} {n},"
            if len(longer) > width:
                lines.append(line)
                line = f"  {n},"
            else:
                line = longer
        line = line[:-1] + "."
        return [*lines, line]


class Matching:
    """Matching."""

    def among(self, text, things):
        whole = begun = FAILED
        if not text:
            return whole
        for o in things:
            name = o.name
            others = o.aliases
            if others or name.startswith(text):
                fit = self.fit(text, name, others)
                if fit == 2:
                    whole = o if whole is FAILED or whole is o else AMBIGUOUS
                elif fit:
                    begun = o if begun is FAILED or begun is o else AMBIGUOUS
        return begun if whole is FAILED else whole

    def fit(self, text, name, others):
        if not isinstance(others, list):
            others = []
        if name == text or text in others:
            return 2
        if name.startswith(text):
            return 1
        if len(others) > 20:
            others = others[:20]
        try:
            for n in others:
                if n.startswith(text):
                    return 1
        except AttributeError:
            pass
        return 0


class Time:
    """Time."""

    def parts(self, t=None):
        if t is None:
            t = task.now
        days = t // 86400
        rest = t % 86400
        weekday = (days + 3) % 7 + 1
        z = days + 719468
        era = z // 146097
        doe = z - era * 146097
        yoe = (doe - doe // 1460 + doe // 36524 - doe // 146096) // 365
        doy = doe - (365 * yoe + yoe // 4 - yoe // 100)
        mp = (5 * doy + 2) // 153
        day = doy - (153 * mp + 2) // 5 + 1
        month = mp + 3 if mp < 10 else mp - 9
        year = yoe + era * 400 + (1 if month <= 2 else 0)
        return year, month, day, rest // 3600, rest // 60 % 60, rest % 60, weekday

    def text(self, *args):
        y, m, d, h, minute, s, w = self.parts(*args)
        right = strings.right
        return f"{y}-{right(m, 2, '0')}-{right(d, 2, '0')} {right(h, 2, '0')}:{right(minute, 2, '0')} UTC"

    def span(self, s):
        if s < 0 or s >= 7200:
            return f"{abs(s // 86400)} days" if s < 0 or s >= 86400 * 2 else f"{s // 3600} hours"
        if s >= 120:
            return f"{s // 60} minutes"
        return f"{s}{' second' if s == 1 else ' seconds'}"


strings, matching, clock = Strings(), Matching(), Time()
