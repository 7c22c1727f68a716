"""Connections and moments by the tens of thousands, and events that the server must refuse."""
import program, world

NUMBERS = 65_536
# The number of the first player of a database with one for each connection.
FIRST = 6
HEADS = ["Event", "Answer", "Seen"]
CROWD_HEADS = ["Connections", "Seconds", "Megabytes", "Ended"]
# Events that are refused, by name: the events, the last line printed and the status.
REFUSED = [
    ("bytes for a connection that isn't there", "line 7 look\n", "refused: NoSuchConnection", 5),
    ("a hang-up of one that isn't there", "hangup 7\n", "refused: NoSuchConnection", 5),
    ("bytes for one that hung up", "open 7\nhangup 7\nline 7 look\n", "refused: NoSuchConnection", 5),
    ("a second hang-up", "open 7\nhangup 7\nhangup 7\n", "refused: NoSuchConnection", 5),
    ("an opening of a number in use", "open 7\nopen 7\n", "refused: ConnectionInUse", 5),
    ("the 65,537th number", "open 65536\n", "bad line 1", 5),
    ("a moment that goes back", "moment 9\nmoment 8\n", "refused: ClockBack", 5),
    ("the last moment, then one before it", "moment 4294967295\nmoment 4294967294\n", "refused: ClockBack", 5),
    ("a moment past the last", "moment 4294967296\n", "bad line 1", 5),
    ("a connection below 0", "open -1\n", "bad line 1", 5),
    ("an odd number of digits", "open 1\nbytes 1 abc\n", "bad line 2", 5),
    ("an event for a server that is shut down", "open 1\nline 1 #3\nline 1 eval shutdown();\n" + "flush\n" * 8 + "open 2\n", "refused: Closed", 5),
]
# Events that are taken, and all lines that each prints.
TAKEN = [
    ("moments up to the last, each twice", "moment 0\nmoment 0\nmoment 4294967294\nmoment 4294967295\nmoment 4294967295\n", []),
    ("two checkpoints at the last moment", "moment 4294967295\n" + "flush\n" * 20, []),
    ("no bytes at all", "open 1\nbytes 1 \nhangup 1\n", []),
]


def players():
    """Returns the smallest world, with a player for each number of a connection."""
    return world.small() + [world.Thing(f"P{number}", world.PLAYER, 3, 1, 2) for number in range(NUMBERS)]


def together(count, lines):
    """Returns events that open this many numbers, each with these lines, and then hang up."""
    events = [f"open {number}\n" for number in range(count)]
    events += [line.format(number, FIRST + number) + "\n" for line in lines for number in range(count)]
    events += [f"hangup {number}\n" for number in range(count)]
    return "".join(events)


def in_turn(count):
    """Returns events that open this many numbers and hang up each before the next."""
    return "".join(f"open {number}\nhangup {number}\n" for number in range(count))


def main(database):
    rows, is_well = [], True
    for name, events, last, status in REFUSED:
        run = program.script(database, events)
        fits = (run.last(), run.status) == (last, status)
        rows.append((name, f"`{last}`, status {status}", "as expected" if fits else f"NOT: {run.last()}, {run.status}"))
        is_well &= fits
    for name, events, lines in TAKEN:
        run = program.script(database, events)
        fits = (run.output.splitlines(), run.status) == (lines, 0)
        rows.append((name, "status 0", "as expected" if fits else f"NOT: {run.output[-200:]}, {run.status}"))
        is_well &= fits
    return rows, is_well


def crowds(database, players):
    """Returns rows of a table: what many connections take. The second database has a player for each number, from FIRST on."""
    rows, is_well, half = [], True, "61" * 8192
    for path, count, what, events in (
        (database, 1_000, "open at once, each with 8,192 bytes that end no line", together(1_000, ["bytes {0} " + half])),
        (database, 4_000, "open at once", together(4_000, [])),
        (database, 16_000, "open at once", together(16_000, [])),
        (database, 1, "with the last number, and 131,072 moments: the script's own part", f"open {NUMBERS - 1}\n" + "moment 0\n" * 131_072),
        (database, NUMBERS, "one after another", in_turn(NUMBERS)),
        (database, NUMBERS, "open at once", together(NUMBERS, [])),
        (players, 16_000, "open at once, each a player's", together(16_000, ["line {0} #{1}"])),
        (players, NUMBERS, "open at once, each a player's", together(NUMBERS, ["line {0} #{1}"])),
    ):
        run = program.script(path, events + "open 1\nline 1 #5\n", patience=1800, most=1 << 30)
        logins = count if "player" in what else 0
        fits = (run.output.count("*** Connected ***\n"), run.output.count("\n"), run.status) == (logins + 1, logins + 1, 0)
        rows.append((f"{count:,} {what}", f"{run.seconds:.1f}", f"{run.megabytes:.0f}", "well" if fits else f"NOT: {run.last()}"))
        is_well &= fits
    return rows, is_well
