"""What `moo serve` prints, logs and answers, and what its clients see, byte by byte. Each case is over a new database, tests/serve/start.db:
everyone who connects is the wizard, whose verb `eval` runs what follows a semicolon."""

import pathlib
import re
import shutil
import subprocess
import tempfile
import time
from functools import partial

from crowd_cases import a_line_next_to_a_crowd
from outcome import PATIENCE, Outcome, Result, Skipped
from serving import DATA, FILE, Server, Unlike, reset, rest, same, sees, sees_last, starting

LISTENS = "listening on 127.0.0.1:PORT\n"
BEGUN = "[INFO  moo::serve] listening on 127.0.0.1:PORT over programs.db\n"
GREETING = b"*** Connected ***\r\n"
LOOKED = b"I couldn't understand that.\r\n"
LAST = b"*** Shutting down ***\r\n"

# The times of the clock, one after another, and the time of the world at each.
CLOCKS = [(2_000_000_000, 2_000_000_000), (1_500_000_000, 2_000_000_000), (2_000_000_005, 2_000_000_005)]

# Sends 200 lines of 65,536 letters to the one who types it, and writes to the log.
BIG = b';s = "x"; for i in [1..16] s = s + s; endfor for i in [1..200] notify(player, s); endfor server_log("told");'

# The limits that such lines pass: an option, or the 16,777,216 bytes that may wait if none is given.
FEWER = [(["--most-waiting", "1000000"], 200), ([], 600)]


def block(folder):
    """Makes a folder with the name of the file of a checkpoint that is being written."""
    (folder / (FILE + ".new")).mkdir()


# The program that the world runs as it begins, what else is there, the options; what is printed, what is logged, the status.
PROGRAMS = [
    ('server_log("up");', {}, ["--rounds", "1"], LISTENS, BEGUN + "[INFO  moo] up\n", 0),
    ("dump_database();", {}, ["--rounds", "5"], LISTENS, BEGUN + "[INFO  moo::serve] checkpoint done: 453 bytes in TIME\n", 0),
    ("dump_database();", {"before": block}, ["--rounds", "1"], LISTENS,
     "[WARN  moo::serve] no checkpoint can be made: HERE/programs.db.new: Is a directory (os error 21)\n" + BEGUN
     + "[WARN  moo::serve] checkpoint failed: HERE/programs.db.new: Is a directory (os error 21)\n", 0),
    ("shutdown();", {}, ["--rounds", "1000000000"], LISTENS, BEGUN + "[INFO  moo::serve] checkpoint done: 448 bytes in TIME\n", 0),
    ("return 0;", {"is_taken": True}, ["--rounds", "1"], "refused: Device\n",
     "[WARN  moo::serve] 127.0.0.1:PORT: Address already in use (os error 98)\n", 3),
    ("return 2.5;", {}, ["--rounds", "1"], "line 78: Program #0:1 line 1 BadToken\n",
     "[WARN  moo::serve] programs.db: line 78: Program #0:1 line 1 BadToken\n", 1),
]

# The database's text, or no file; what is printed, what is logged, the status.
DATABASES = [
    ("** LambdaMOO Database, Format Version 4 **\n4\n", "line 3: Truncated\n", "[WARN  moo::serve] programs.db: line 3: Truncated\n", 1),
    (None, "refused: Device\n", "[WARN  moo::serve] programs.db: No such file or directory (os error 2)\n", 3),
]


def a_world_is_served(moo, program, found, options, *wanted):
    with Server(moo, starting(program), *options, **found) as server:
        server.is_over(*wanted)


def a_database_is_refused(moo, text, *wanted):
    with Server(moo, text, "--rounds", "1") as server:
        server.is_over(*wanted)


def a_client_looks_and_is_redirected(moo):
    with Server(moo, starting("return 0;")) as server:
        client = server.connect()
        client.sendall(b"look\r\n")
        sees(client, GREETING + LOOKED)
        other = server.connect()
        sees_last(client, b"*** Redirecting connection to new port ***\r\n")
        other.sendall(b"look\r\n;shutdown();\r\n")
        sees_last(other, b"*** Redirecting old connection to this port ***\r\n" + LOOKED + LAST)
        server.is_over(LISTENS, BEGUN + "[INFO  moo::serve] checkpoint done: 446 bytes in TIME\n")


def output_waits_until_it_is_read(moo):
    """All lines come, then the one that says that it is disconnected, and then the end: one who is leaving is closed after the last byte."""
    with Server(moo, starting("return 0;")) as server:
        client = server.connect()
        client.sendall(BIG + b"boot_player(player);\n")
        server.wait("logged", r"\[INFO  moo\] told")
        sees_last(client, GREETING + 200 * (65_536 * b"x" + b"\r\n") + b"*** Disconnected ***\r\n")
        same("logged", server.read("logged"), BEGUN + "[INFO  moo] told\n")


def one_who_never_reads_is_hung_up(moo, options, lines):
    with Server(moo, starting("return 0;"), *options) as server:
        client = server.connect()
        client.sendall(BIG.replace(b"200", b"%d" % lines) + b"boot_player(player);\n")
        server.wait("logged", r"\[INFO  moo\] told")
        logged = server.read("logged")
        same("logged", re.sub(r"up: \d{7,8} bytes", "up: MANY bytes", logged),
             BEGUN + "[WARN  moo::serve] connection 0 is hung up: MANY bytes wait for it\n[INFO  moo] told\n")
        # The client gets what the system had taken, and then the end.
        waiting = int(re.search(r"up: (\d+) bytes", logged)[1])
        same("bytes", len(rest(client)) + waiting, len(GREETING) + lines * 65_538 + len(b"*** Disconnected ***\r\n"))
        other = server.connect()
        other.sendall(b";shutdown();\n")
        sees_last(other, GREETING + LAST)


def the_next_one_under_a_number_starts_clean(moo):
    """The first client leaves with half a line typed, and output that waits. The log has the number of each that comes."""
    hooks = ('set_verb_code(#0, "do_login_command", {"server_log(tostr(player)); return #3;"});\n'
             'add_verb(#0, {#3, "rxd", "user_client_disconnected"}, {"this", "none", "this"});\n'
             'set_verb_code(#0, "user_client_disconnected", {"server_log(\\"left\\");"});')
    with Server(moo, starting(hooks)) as server:
        first = server.connect()
        first.sendall(b"look\nlook\n" + BIG + b"\nhalf a line")
        server.wait("logged", r"\[INFO  moo\] told")
        reset(first)
        server.wait("logged", r"\[INFO  moo\] left")
        client = server.connect()
        client.sendall(b"\n;shutdown();\n")
        sees_last(client, GREETING + LAST)
        told = "".join(f"[INFO  moo] {line}\n" for line in ["#-2", "told", "left", "#-2"])
        server.is_over(LISTENS, BEGUN + told + "[INFO  moo::serve] checkpoint done: 761 bytes in TIME\n")


def a_clock_that_is_set_back_is_not_shown(moo):
    """The time of the world: the last moment that it was given, until the clock has passed it."""
    compiler = next(filter(None, map(shutil.which, ["cc", "gcc", "clang"])), None)
    if compiler is None:
        raise Skipped("there is no C compiler, by which such a clock is made")
    with tempfile.TemporaryDirectory() as folder:
        clock, library = pathlib.Path(folder, "clock"), pathlib.Path(folder, "clock.so")
        subprocess.run([compiler, "-shared", "-fPIC", "-o", library, DATA / "clock.c"], check=True)
        clock.write_text("1900000000")
        with Server(moo, starting("return 0;"), environ={"LD_PRELOAD": str(library), "CLOCK": str(clock)}) as server:
            client = server.connect()
            sees(client, GREETING)
            for says, shown in CLOCKS:
                (clock.parent / "next").write_text(str(says))
                (clock.parent / "next").replace(clock)
                # The round that answers this gives the world the new moment.
                client.sendall(b"look\n")
                sees(client, LOOKED)
                client.sendall(b";return time();\n")
                sees(client, b"{1, %d}\r\n" % shown)
            client.sendall(b";shutdown();\n")
            sees_last(client, LAST)


# The option that logs logins, and how the lines of the log on them begin.
LOGINS = ["--log-logins", "10"]
ABOUT = r"\[INFO  moo::serve\] connection "

# Nobody logs in: a line is answered and comes to nothing, or ends the connection.
REFUSES = 'set_verb_code(#0, "do_login_command", {"notify(player, \\"no\\"); return 0;"});'
HANGS_UP = 'set_verb_code(#0, "do_login_command", {"if (args) boot_player(player); endif return 0;"});'


def logs(server, *lines):
    """Fails if the log has other lines of the server than these after the first."""
    same("logged", server.read("logged"), BEGUN + "".join(f"[INFO  moo::serve] {line}\n" for line in lines))


def a_login_a_redirection_and_a_leaving_are_logged(moo):
    with Server(moo, starting("return 0;"), *LOGINS) as server:
        client = server.connect()
        client.sendall(b"look\n")
        sees(client, GREETING + LOOKED)
        other = server.connect()
        sees_last(client, b"*** Redirecting connection to new port ***\r\n")
        reset(other)
        server.wait("logged", ABOUT + "1: player #3 has left")
        logs(server, "connection 0: player #3 has logged in", "connection 1: player #3 has logged in, and is no longer on connection 0",
             "connection 1: player #3 has left")


def who_leaves_by_a_shutdown_is_logged(moo):
    with Server(moo, starting("return 0;"), *LOGINS) as server:
        client = server.connect()
        client.sendall(b";shutdown();\n")
        sees_last(client, GREETING + LAST)
        told = "".join(f"[INFO  moo::serve] {line}\n" for line in [
            "connection 0: player #3 has logged in", "connection 0: player #3 has left", "checkpoint done: 446 bytes in TIME"])
        server.is_over(LISTENS, BEGUN + told)


def a_line_that_logs_nobody_in_is_logged(moo):
    with Server(moo, starting(REFUSES), *LOGINS) as server:
        client = server.connect()
        client.sendall(b"half a line")
        sees(client, b"no\r\n")
        client.sendall(b" and its end\n")
        sees(client, b"no\r\n")
        server.wait("logged", ABOUT + "0: nobody is logged in after a line")
        logs(server, "connection 0: nobody is logged in after a line")


def a_line_that_ends_its_connection_is_logged(moo):
    with Server(moo, starting(HANGS_UP), *LOGINS) as server:
        client = server.connect()
        client.sendall(b"connect wizard\n")
        sees_last(client, b"*** Disconnected ***\r\n")
        server.wait("logged", ABOUT + "0: nobody is logged in after a line, and it is leaving")
        logs(server, "connection 0: nobody is logged in after a line, and it is leaving")


def all_are_counted(server, lines, most, begun, line, count):
    """Waits until so many lines are logged or counted, and fails if the log has more than so many in a second since then."""
    end, counted = time.monotonic() + PATIENCE, 0
    while counted < lines and time.monotonic() < end:
        time.sleep(0.01)
        seconds = 2 + int(time.monotonic() - begun)
        logged = server.read("logged")
        written = len(re.findall(f"^{ABOUT}{line}$", logged, re.MULTILINE))
        counted = written + sum(map(int, re.findall(rf"(\d+) more lines on {count} were left out in one second$", logged, re.MULTILINE)))
    same("lines", counted, lines)
    same("too many", max(0, written - most * seconds), 0)


def a_storm_of_lines_is_counted(moo):
    with Server(moo, starting(REFUSES), "--log-logins", "3") as server:
        client = server.connect()
        sees(client, b"no\r\n")
        begun = time.monotonic()
        for _ in range(100):
            client.sendall(b"connect wizard\n")
            sees(client, b"no\r\n")
        all_are_counted(server, 100, 3, begun, "0: nobody is logged in after a line", "those who aren't logged in")


def a_storm_of_logins_is_counted(moo):
    """Each client redirects the one before, and the last one leaves."""
    with Server(moo, starting("return 0;"), "--log-logins", "3") as server:
        begun = time.monotonic()
        clients = [server.connect() for _ in range(100)]
        for client in clients[:-1]:
            rest(client)
        reset(clients[-1])
        all_are_counted(server, 101, 3, begun, r"\d+: player #3 has (logged in(, and is no longer on connection \d+)?|left)", "players")


def who_sends_nothing_is_hung_up(moo):
    with Server(moo, starting("return 0;"), "--idle-seconds", "1") as server:
        client = server.connect()
        sees_last(client, GREETING)
        server.wait("logged", r"\[WARN  moo::serve\] connection 0 is hung up: it has sent nothing for 1 s, nor have 0 others")


def a_shutdown_is_written_and_the_server_closes(moo):
    with Server(moo, starting("return 0;")) as server:
        client = server.connect()
        client.sendall(b';#2.name = "A Hall"; shutdown();\n')
        sees_last(client, GREETING + LAST)
        server.is_over(LISTENS, BEGUN + "[INFO  moo::serve] checkpoint done: 438 bytes in TIME\n")
        same("database", (server.folder / FILE).read_text(), starting("return 0;").replace("The First Room", "A Hall"))


CASES = [
    *((a_world_is_served, case) for case in PROGRAMS),
    *((a_database_is_refused, case) for case in DATABASES),
    *((one_who_never_reads_is_hung_up, case) for case in FEWER),
    (a_client_looks_and_is_redirected, ()),
    (output_waits_until_it_is_read, ()),
    (the_next_one_under_a_number_starts_clean, ()),
    (a_clock_that_is_set_back_is_not_shown, ()),
    (a_login_a_redirection_and_a_leaving_are_logged, ()),
    (who_leaves_by_a_shutdown_is_logged, ()),
    (a_line_that_logs_nobody_in_is_logged, ()),
    (a_line_that_ends_its_connection_is_logged, ()),
    (a_storm_of_lines_is_counted, ()),
    (a_storm_of_logins_is_counted, ()),
    (who_sends_nothing_is_hung_up, ()),
    (a_shutdown_is_written_and_the_server_closes, ()),
    (a_line_next_to_a_crowd, ()),
]


def as_bytes(value):
    """Returns what was seen or wanted, as a difference is shown."""
    return value if isinstance(value, bytes) else str(value).encode()


def play_case(program, place, show, case):
    """Plays a case. Its outcome is the first thing that differs from what is wanted."""
    title = place + "".join(f", {part!r}" for part in case[:1])
    try:
        show(program.path, *case)
    except Unlike as fault:
        return [Outcome(place, f"{title}: {fault.what}", Result(0, as_bytes(fault.wanted)), Result(0, as_bytes(fault.seen)))]
    return [Outcome(place, title, Result(0, b""), Result(0, b""))]


def units_of(program, kind, cases):
    """Returns the units that play cases, each with its place: the kind and the name of its function."""
    places = [f"{kind}: " + show.__name__.replace("_", " ") for show, _ in cases]
    return [(place, partial(play_case, program, place, show, case)) for place, (show, case) in zip(places, cases)]


def units(program):
    """Returns the units that play all cases, each with its place."""
    return units_of(program, "serving", CASES)
