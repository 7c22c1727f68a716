"""Makes a command of a typed line, and chooses the method that runs it."""

FORMS = [
    "with/using", "at/to", "in front of", "in/inside/into", "on top of/on/onto/upon", "out of/from inside/from", "over", "through",
    "under/underneath/beneath", "behind", "beside", "for/about", "is", "as", "off/off of",
]
SIGNS = {'"': "say ", ":": "emote ", ";": "eval "}

# A match that failed, and one that found several objects. An empty text is None.
FAILED, AMBIGUOUS = object(), object()


def forms_by_word():
    """Returns the forms of prepositions by their first word, the longest first: their words, and their group."""
    found = {}
    for group in FORMS:
        for form in group.split("/"):
            words = form.split()
            found.setdefault(words[0], []).append((words, group))
    for forms in found.values():
        forms.sort(key=lambda form: -len(form[0]))
    return found


BY_WORD = forms_by_word()


class Command:
    """A typed line: its player, its verb, its words and the objects that they name."""

    __slots__ = ("player", "verb", "argstr", "args", "dobjstr", "dobj", "prep", "prepstr", "iobjstr", "iobj")

    def __init__(self, player, line):
        line = line.lstrip(" ")
        if line[:1] in SIGNS:
            line = SIGNS[line[0]] + line[1:]
        self.player = player
        verb, _, argstr = line.partition(" ")
        self.verb, self.argstr = verb, argstr.lstrip(" ")
        self.args = words_of(argstr)
        self.split()
        self.dobj = match_object(self.dobjstr, player)
        self.iobj = match_object(self.iobjstr, player)

    def split(self):
        """Splits the words at the leftmost preposition."""
        args = self.args
        for place, word in enumerate(args):
            for words, group in BY_WORD.get(word, ()):
                end = place + len(words)
                if args[place:end] == words:
                    self.prep, self.prepstr = group, " ".join(words)
                    self.dobjstr, self.iobjstr = " ".join(args[:place]), " ".join(args[end:])
                    return
        self.prep = self.prepstr = self.iobjstr = ""
        self.dobjstr = " ".join(args)


def words_of(text):
    """Cuts a text into words at its spaces. Double quotes hold words together, and a backslash takes the next letter as it is."""
    if '"' not in text and "\\" not in text:
        return text.split()
    words, word, is_open = [], None, False
    letters = iter(text)
    for letter in letters:
        if letter == " " and not is_open:
            if word is not None:
                words.append(word)
            word = None
        elif letter == '"':
            word, is_open = word or "", not is_open
        else:
            word = (word or "") + (next(letters, "") if letter == "\\" else letter)
    return words if word is None else [*words, word]


def match_object(text, who):
    """Returns what a text names to a player: whole names before beginnings."""
    if not text:
        return None
    here = who.location
    if text == "me":
        return who
    if text == "here":
        return here
    whole = begun = FAILED
    for o in [*who.contents, *(here.contents if here is not None else [])]:
        if o.name == text or text in o.aliases:
            whole = o if whole is FAILED or whole is o else AMBIGUOUS
        elif o.name.startswith(text):
            begun = o if begun is FAILED or begun is o else AMBIGUOUS
        else:
            for alias in o.aliases:
                if alias.startswith(text):
                    begun = o if begun is FAILED or begun is o else AMBIGUOUS
                    break
    return begun if whole is FAILED else whole


def typed(names, dobj="any", prep="any", iobj="any"):
    """Marks a method as a command with these names and specifiers."""
    def mark(method):
        method.typed = (names, dobj, prep, iobj)
        return method
    return mark


def gather(kind):
    """Gives a class the table of its commands and those of its ancestors, by each word that can be typed for them."""
    found = {}
    for method in vars(kind).values():
        names, *specifiers = getattr(method, "typed", ("",))
        for name in names.split():
            head, star, tail = name.partition("*")
            for length in range(len(tail) + 1) if star else [0]:
                found.setdefault(head + tail[:length], []).append((*specifiers, method))
    for word, entries in getattr(kind, "commands", {}).items():
        found[word] = found.get(word, []) + entries
    kind.commands = found


def choose(command):
    """Returns the object and the method that run a command, or nothing."""
    verb, dobj, iobj, prep = command.verb, command.dobj, command.iobj, command.prep
    player = command.player
    for o in (player, player.location, dobj, iobj):
        if o is None or o is FAILED or o is AMBIGUOUS:
            continue
        for first, between, second, method in o.commands.get(verb, ()):
            if ((first == "any" or (dobj is None if first == "none" else dobj is o))
                    and (between == "any" or (not prep if between == "none" else prep == between))
                    and (second == "any" or (iobj is None if second == "none" else iobj is o))):
                return o, method
    return None
