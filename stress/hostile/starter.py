"""What a player without a flag can do in the starter world by one piece of bytes. Each line that the world's own transcripts type is
repeated, as often as the piece holds it: at the landing, in a room that is full of things, and there with two hundred others."""
import glob, os
from concurrent.futures import ThreadPoolExecutor
import program

HEADS = ["Place", "Line", "Times", "Seconds", "Megabytes sent"]
WORLD = os.path.join(program.TOP, "worlds", "starter.db")
ANN = ["open 1", "line 1 connect Ann open-sesame"]
# A name of 60 letters, the longest that is allowed.
LONG = "w" * 57
# Twenty letters of which no two look alike.
LETTERS = "abcdefghijkmnopqstux"
# The wizard's first password at moment 0. The limits allow all players of a place to be made at once.
WIZARD = ["open 0", "line 0 connect wizard sanotu-sorosi", "line 0 ;$login.most_in_minute = $login.most_in_day = 1000"]
# Lines as short as they may be, and two that lead out of a room and in again.
SHORT = ["l", "i", "l me", "l x", 'l "', "?", "who", "@who", "@audit", '"x', ":x", "x", "home", "post x", "wh x y", "page x y", "exam x", "@set x.y to z", "e\nw", "w\ne"]


def typed():
    """Returns each line that a transcript types, once, without programs after a semicolon."""
    lines = set(SHORT)
    for path in glob.glob(os.path.join(program.TOP, "worlds/starter/tests/*.script")):
        with open(path) as file:
            words = [line.rstrip("\n").split(" ", 2) for line in file]
        lines |= {each[2] for each in words if each[0] == "line" and len(each) == 3}
    return sorted(line for line in lines if line and not line.startswith(";"))


def settled(events):
    """Returns the starter world after these events and a checkpoint."""
    run = program.script(WORLD, "\n".join(WIZARD + events + ["line 0 @dump-database"] + ["flush"] * 30 + ["show"]) + "\n")
    return run.output[run.output.index("** LambdaMOO Database"):]


def one_player():
    """Returns the events that make Ann, with a description of nearly only blanks, as long as a line may be."""
    return ["open 1", "line 1 create Ann open-sesame", f"line 1 @set me.description to x{' ' * 7_900}y"]


def furnished():
    """Returns the events that make Ann, and fifteen players who each put twenty things down in the meadow."""
    events = one_player()
    for player in range(15):
        number, letter = 10 + player, LETTERS[player]
        events += [f"open {number}", f"line {number} create P{letter} open-sesame", f"line {number} w"]
        for thing in LETTERS:
            events += [f"line {number} @create $thing named {letter}{thing} {LONG}", f"line {number} drop {letter}{thing}"]
    return events


def crowd(word, *lines):
    """Returns the events of two hundred players on connections of their own, who connect by this word and type these lines."""
    events = []
    for number in range(200):
        name = f"P{LETTERS[number // 20]}{LETTERS[number % 20]}"
        events += [f"open {100 + number}", f"line {100 + number} {word} {name} open-sesame"]
        events += [f"line {100 + number} {line}" for line in lines]
    return events


# Each place of Ann: the events that make the world, and those that are played before the piece. At the last place the short lines
# are tried, and the sixty that took longest at the one before.
PLACES = {
    "at the landing, described by a letter, 7,900 blanks and a letter": (one_player(), ANN),
    "in a room with 300 things, put there by fifteen players": (furnished(), ANN + ["line 1 w"]),
    "that room, with 200 other players": (furnished() + crowd("create", "w"), crowd("connect") + ANN + ["line 1 w"]),
}


def piece(line):
    times = program.times_in_piece(line)
    return times, f"bytes 1 {(line.encode() + bytes([10])).hex() * times}"


def tried(path, before, line):
    """Returns what this many of a line take besides the program's start, and whether the server goes on."""
    times, event = piece(line)
    run = program.script(path, "\n".join(before + [event, "open 9"]) + "\n", most=1 << 28)
    fits = run.status == 0 and "\n9: " in run.output
    return run.seconds, len(run.output) / 1e6, fits


def least(path, before, line, pieces):
    """Returns the least seconds of three runs of these events and this many pieces."""
    events = before + [piece(line)[1]] * pieces + ["open 9"]
    return min(program.script(path, "\n".join(events) + "\n", most=1 << 28).seconds for _ in range(3))


def alone(path, before, line):
    """Returns what one piece takes: a fourth of what four take besides the events before them."""
    return (least(path, before, line, 4) - least(path, before, line, 0)) / 4


def main(folder):
    rows, is_well, lines = [], True, typed()
    for name, (making, before) in PLACES.items():
        path = os.path.join(folder, "settled.db")
        with open(path, "w") as file:
            file.write(settled(making))
        with ThreadPoolExecutor(2) as pool:
            found = dict(zip(lines, pool.map(lambda line: tried(path, before, line), lines)))
        fits = all(each[2] for each in found.values())
        is_well &= fits
        rows.append((f"**{name}**", f"{len(found)} lines tried", "", "", "" if fits else "WRONG"))
        told = len(program.script(path, "\n".join(before + ["open 9"]) + "\n", most=1 << 28).output) / 1e6
        dearest = sorted(found, key=lambda line: -found[line][0])
        again = sorted(((alone(path, before, line), line) for line in dearest[:12]), reverse=True)
        for seconds, line in again[:6]:
            words = "`, `".join(line.split("\n"))
            rows.append((name, f"`{words}`", piece(line)[0], f"{seconds:.3f}", f"{found[line][1] - told:.1f}"))
        if name != next(iter(PLACES)):
            lines = sorted({*SHORT, *dearest[:60]})
    return rows, is_well
