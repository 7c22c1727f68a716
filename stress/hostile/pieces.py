"""Any bytes, cut in any way: `moo script` goes on, and its answers don't depend on the cutting."""
import itertools, os, random, tempfile
import program, world

HEADS = ["Bytes", "Lines reported", "Seconds", "Answers under each cutting"]
ALPHABET = [b"\r", b"\n", b"\0", b"\xff", b'"', b"\\", b" ", b"a"]
SINGLE = [b""] + ALPHABET
PIECES = SINGLE + [one + two for one, two in itertools.product(ALPHABET, repeat=2)]
TELL = "notify(player, toliteral({args, argstr}));\n"
# The lines before the pieces, which decide who is connected when these come.
STATES = {
    "nobody is logged in": [],
    "a player at commands": ["#5"],
    "a programmer who gathers lines": ["#4", ".program me:told"],
}


def telling():
    """Returns a world that prints each line as it was read, by a hook for strangers and by one for players."""
    things = world.small()
    things[0].verbs = [
        world.verb("do_login_command", TELL + world.LOGIN, 3),
        world.verb("do_command", TELL + "return 1;", 3),
    ]
    things[4].verbs.append(world.verb("told", None, 4))
    return world.text(things)


def hexadecimal(piece):
    return f"bytes 1 {piece.hex()}\n"


def lists(file, lines, cut, pieces):
    """Writes the events for each list of three pieces: its bytes, cut or in one, and what ends the line and the gathering."""
    before = "open 1\n" + "".join(f"line 1 {line}\n" for line in lines)
    for three in itertools.product(pieces, repeat=3):
        given = three if cut else [b"".join(three)]
        file.write(before + "".join(map(hexadecimal, given)) + "line 1 \nline 1 .\nhangup 1\n")


def stream(file, seed, count, cut):
    """Writes the events of random pieces on ten connections that come and go. Another random generator decides how they are cut."""
    chance, knife = random.Random(seed), random.Random(seed + 1)
    is_open = set()
    for _ in range(count):
        number = chance.randrange(10)
        if number not in is_open:
            file.write(f"open {number}\n")
            is_open.add(number)
            file.write(f"line {number} {chance.choice(['#4', '#5', 'nobody'])}\n")
        piece = bytes(odd(chance) for _ in range(chance.randrange(64)))
        for part in parts(piece, knife) if cut else [piece]:
            file.write(f"bytes {number} {part.hex()}\n")
        if chance.random() < 0.01:
            file.write(f"hangup {number}\n")
            is_open.remove(number)


def odd(chance):
    return chance.choice(ALPHABET)[0] if chance.random() < 0.5 else chance.randrange(256)


def parts(piece, knife):
    ends = sorted(knife.randrange(len(piece) + 1) for _ in range(2))
    return [piece[:ends[0]], piece[ends[0]:ends[1]], piece[ends[1]:]]


def told(database, write):
    with tempfile.TemporaryDirectory() as folder:
        path = os.path.join(folder, "given")
        with open(path, "w") as file:
            write(file)
        return program.script(database, "@" + path, most=1 << 30)


def compared(name, database, write, rows):
    """Runs the bytes in one piece and cut. Returns a row of the table, and whether all is well."""
    joined, cut = (told(database, lambda file, cut=cut: write(file, cut)) for cut in (False, True))
    is_well = (joined.status, cut.status) == (0, 0) and "" != each(joined.output) == each(cut.output)
    rows.append((name, len(joined.output.splitlines()), f"{cut.seconds:.1f}", "the same" if is_well else "DIFFERENT"))
    return is_well


def each(output):
    """Returns the lines of each connection in their order. An event's lines for several connections are printed by their numbers."""
    return "\n".join(sorted(output.splitlines(), key=lambda line: line.split(":")[0]))


def main(database):
    rows, is_well = [], True
    for state, lines in STATES.items():
        pieces = PIECES if len(lines) == 1 else SINGLE
        name = f"all {len(pieces) ** 3:,} lists of three pieces, {state}"
        is_well &= compared(name, database, lambda file, cut: lists(file, lines, cut, pieces), rows)
    is_well &= compared("100,000 random pieces on ten connections", database, lambda file, cut: stream(file, 25, 100_000, cut), rows)
    return rows, is_well
