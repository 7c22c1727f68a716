"""What a line costs the server next to clients that say nothing. It may cost hardly more than a line of one who is alone."""

import resource

from outcome import Skipped
from serving import Server, Unlike, sees, starting
from stepping import instructions

SILENT = 4000
# The fewest clients that show it, if a process may have few open files.
FEWEST = 900
# How many lines are typed before a round, how many are counted in one, and how many rounds there are.
EARLIER, LINES, ROUNDS = 50, 6, 3
# How many times the instructions of a line of one client alone.
MOST = 1.5
# A stranger who types nothing isn't logged in. Whoever types something is the wizard.
BEGINS, WORLD_LINE = "return #3;", "return args ? #3 | #-1;"
LOOKED = b"I couldn't understand that.\r\n"
GREETING = b"*** Connected ***\r\n"


def crowd_size():
    """Raises the limit of open files for this many clients, and returns how many there may be, or skips the case."""
    soft, hard = resource.getrlimit(resource.RLIMIT_NOFILE)
    if hard == resource.RLIM_INFINITY:
        hard = SILENT + 200
    if hard < FEWEST + 200:
        raise Skipped(f"a process may have {hard} open files alone")
    resource.setrlimit(resource.RLIMIT_NOFILE, (max(soft, min(hard, SILENT + 200)), hard))
    return min(SILENT, hard - 200)


def instructions_of_a_line(server, client):
    """Returns the instructions of a line that is answered before the next is typed: the least of some rounds, since the server may still be taking
    connections in the first."""
    return min(instructions_of_a_round(server, client) for _ in range(ROUNDS))


def instructions_of_a_round(server, client):
    """Returns the instructions of a line of a round."""
    type_lines(client, EARLIER)
    return instructions(server.process.pid, lambda: type_lines(client, LINES)) / LINES


def type_lines(client, count):
    for _ in range(count):
        client.sendall(b"xyzzy\r\n")
        sees(client, LOOKED)


def a_line_next_to_a_crowd(moo):
    """Types lines alone, and then next to a crowd that is not logged in and says nothing."""
    silent = crowd_size()
    with Server(moo, starting("").replace(BEGINS, WORLD_LINE)) as server:
        client = server.connect()
        client.sendall(b"look\r\n")
        sees(client, GREETING)
        alone = instructions_of_a_line(server, client)
        crowd = [server.connect() for _ in range(silent)]
        beside = instructions_of_a_line(server, client)
        for other in [*crowd, client]:
            other.close()
    if beside > MOST * alone:
        raise Unlike(f"instructions of a line next to {silent} silent clients", round(beside), f"at most {MOST} times {alone:.0f}")
