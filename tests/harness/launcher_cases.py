"""Which program ./moo runs: cases over a small folder of sources, with programs and a kit that say who they are."""

import fcntl
import hashlib
import os
import pathlib
import platform
import re
import shutil
import signal
import stat
import subprocess
import sys
import tempfile
from functools import partial

from outcome import PATIENCE, Outcome, Result, Skipped
from row_file import TOP

# The commands that the launcher takes from the system. A run has these alone on its path, and perhaps a kit.
TOOLS = ("awk cat chmod cp cut date dd dirname find flock grep head mkdir mkfifo mktemp mv paste readlink rm sed sh sha256sum sleep sort stat tail tar tr uname"
         " wc xargs yes").split()

PARTS = ["moo", "release/sum", "release/check", "release/launch"]
NEWER = "moo: the sources are newer than the release; this is the release (./moo build builds the newer program)\n"
OLDER = "moo: the sources are newer than the program that was built here; this is that program (./moo build builds the newer one)\n"
BUILDS = "moo: proving and building 1 crates, once ..\n"
NOTHING = ("moo: there is no program: release/moo cannot run here, and nothing was built here"
           " (building needs the command rt of the Rattle kit)\n")


def program(name):
    """Returns a program that prints its name and its arguments."""
    return f'#!/bin/sh\necho {name} "$@"\n'


class Folder:
    """A repository with one crate. It has no kit on the path unless a run asks for one. `tested` is the program that the tests are run with."""

    def __init__(self, top, tested):
        self.top, self.tested = pathlib.Path(top, "work"), tested
        for part in PARTS:
            (self.top / part).parent.mkdir(parents=True, exist_ok=True)
            shutil.copy(TOP / part, self.top / part)
        self.write("crates/moo/src/main.rt", "fn main() {}\n")
        self.write("crates.txt", "# One crate.\nmoo:\n")
        self.write("HANDLES", "none\n")
        self.kit, self.tools = pathlib.Path(top, "kit"), pathlib.Path(top, "tools")
        self.kit.mkdir()
        self.tools.mkdir()
        for tool in TOOLS:
            (self.tools / tool).symlink_to(shutil.which(tool))
        self.set_kit("mkdir -p crates/moo/out; printf '#!/bin/sh\\necho new \"$@\"\\n' > crates/moo/out/moo; chmod 755 crates/moo/out/moo")

    def write(self, name, text, is_program=False):
        path = self.top / name
        path.parent.mkdir(parents=True, exist_ok=True)
        path.write_text(text)
        path.chmod(0o755 if is_program else 0o644)

    def set_kit(self, commands):
        """Makes a command `rt` that does this."""
        (self.kit / "rt").write_text(f"#!/bin/sh\n{commands}\n")
        (self.kit / "rt").chmod(stat.S_IRWXU)

    def set_tool(self, name, text):
        """Makes this program the command of that name."""
        (self.tools / name).unlink()
        (self.tools / name).write_text(text)
        (self.tools / name).chmod(stat.S_IRWXU)

    def sum(self):
        return subprocess.run([self.top / "release/sum"], stdout=subprocess.PIPE, text=True, check=True).stdout

    def release(self, text=program("released")):
        """Makes a release of the sources as they are, which is this program."""
        self.write("release/moo", text, True)
        self.write("release/moo.sha256", hashlib.sha256(text.encode()).hexdigest() + "  moo\n")
        self.write("release/sources.sum", self.sum())

    def build(self):
        """Makes a program that was built from the sources as they are."""
        self.write("crates/moo/out/moo", program("built"), True)
        self.write("crates/moo/out/moo.sources", f"{self.sum().strip()} {hashlib.sha256(program('built').encode()).hexdigest()}\n")

    def change(self):
        self.write("crates/moo/src/main.rt", "fn main() { }\n")

    def run(self, *words, has_kit=False, command=None, folder=None, **environ):
        """Runs the launcher with these words, or another command. The result has its standard error, and after it its output."""
        path = f"{self.kit}:{self.tools}" if has_kit else str(self.tools)
        done = subprocess.run([command or self.top / "moo", *words], capture_output=True, timeout=PATIENCE, check=False,
                              stdin=subprocess.DEVNULL, cwd=folder, env={"PATH": path, **environ})
        return Result(done.returncode, done.stderr + done.stdout)


def the_release_is_run(folder):
    folder.release()
    yield folder.run("expr", "a b"), 0, "released expr a b\n"


def what_was_built_here_is_run_before_the_release(folder):
    folder.release()
    folder.build()
    yield folder.run("expr", has_kit=True), 0, "built expr\n"


def times_of_files_are_not_looked_at(folder):
    folder.release()
    os.utime(folder.top / "crates/moo/src/main.rt", (2_000_000_000, 2_000_000_000))
    yield folder.run("expr", has_kit=True), 0, "released expr\n"
    folder.build()
    folder.change()
    os.utime(folder.top / "crates/moo/src/main.rt", (0, 0))
    yield folder.run("expr"), 0, NEWER + "released expr\n"


def the_release_of_older_sources_is_run(folder):
    folder.release()
    folder.change()
    yield folder.run("expr"), 0, NEWER + "released expr\n"
    yield folder.run("expr", has_kit=True), 0, NEWER + "released expr\n"


def changed_sources_are_built_when_that_is_asked_for(folder):
    folder.release()
    folder.build()
    folder.change()
    yield folder.run("expr", has_kit=True), 0, NEWER + "released expr\n"
    yield folder.run("build", has_kit=True), 0, BUILDS
    yield folder.run("expr", has_kit=True), 0, "new expr\n"
    yield folder.run("build", has_kit=True), 0, "moo: crates/moo/out/moo was built from these sources\n"


def without_a_release_an_older_program_is_run(folder):
    folder.build()
    folder.change()
    yield folder.run("expr", has_kit=True), 0, OLDER + "built expr\n"


def without_a_program_one_is_built(folder):
    yield folder.run("--no-build", "expr", has_kit=True), 2, NOTHING
    yield folder.run("expr", has_kit=True), 0, BUILDS + "new expr\n"
    yield folder.run("expr", has_kit=True), 0, "new expr\n"


def there_is_no_program(folder):
    yield folder.run("expr"), 2, NOTHING
    yield folder.run("build"), 2, "moo: the command rt of the Rattle kit is not on the path\n"


def a_damaged_release_is_not_run(folder):
    folder.release()
    folder.write("release/moo", program("damaged"), True)
    yield folder.run("expr"), 2, NOTHING
    yield folder.run("expr", has_kit=True), 0, BUILDS + "new expr\n"


def a_program_that_others_put_there_is_not_run(folder):
    folder.release()
    folder.build()
    folder.write("crates/moo/out/moo", program("other"), True)
    yield folder.run("expr"), 0, "released expr\n"


def a_build_that_fails_ends_with_status_2(folder):
    folder.release()
    folder.change()
    folder.set_kit("echo it fails; exit 1")
    yield folder.run("build", has_kit=True), 2, BUILDS + "it fails\n"


def each_file_counts_but_those_of_out(folder):
    folder.release()
    folder.write("crates/moo/out/kept", "")
    yield folder.run("expr"), 0, "released expr\n"
    folder.write("crates/moo/proofs/Lib.antt", "")
    yield folder.run("expr"), 0, NEWER + "released expr\n"
    (folder.top / "crates/moo/proofs/Lib.antt").unlink()
    folder.write("HANDLES", "Net\n")
    yield folder.run("expr"), 0, NEWER + "released expr\n"


def the_path_is_printed(folder):
    folder.release()
    yield folder.run("--path"), 0, f"{folder.top}/release/moo\n"


# What the launcher adds to the help of `serve`.
GIVEN = """
The launcher makes the pipe DB.console, and gives these options unless you do:
  --rounds 18446744073709551615
  --login-seconds 300
  --most-unconnected 1000
  --telnet
  --must-save
  --log-logins 10
"""


def an_installed_program_needs_no_repository(folder):
    folder.release()
    place = folder.top.parent / "place"
    yield folder.run("install", str(place)), 0, ""
    for words in ["serve", "--help"], ["serve", "a.db", "-h"]:
        yield folder.run(*words), 0, f"released {' '.join(words)}\n{GIVEN}"
    shutil.rmtree(folder.top)
    yield folder.run("check", "a.db", command=place / "moo"), 0, "released check a.db\n"
    yield folder.run("serve", "--help", command=place / "moo"), 0, f"released serve --help\n{GIVEN}"
    for words in [], ["-h"], ["--help"]:
        yield headings(folder.run(*words, command=place / "moo")), 0, "The launcher adds:"


def an_installation_replaces_no_program_of_the_repository(folder):
    folder.release()
    for place in ".", "release", str(folder.top), "./release/":
        yield (folder.run("install", place, folder=folder.top), 2,
               f"moo: {place} has a moo of the repository, which would be replaced: name another folder\n")
    yield folder.run("--path"), 0, f"{folder.top}/release/moo\n"
    yield folder.run("install", "a/b", folder=folder.top), 0, ""


def a_server_has_limits_and_a_console(folder):
    folder.release()
    world = folder.top / "a.db"
    limits = "--login-seconds 300 --most-unconnected 1000 --telnet --must-save --log-logins 10"
    yield folder.run("serve", str(world), "0"), 0, f"released serve --rounds 18446744073709551615 {limits} --console {world} 0\n"
    yield folder.run("serve", str(world), "0", "--rounds", "3"), 0, f"released serve {limits} --console {world} 0 --rounds 3\n"
    given = ["--rounds", "3", "--login-seconds", "0", "--most-unconnected=5", "--telnet", "--must-save", "--log-logins=0", "--console"]
    yield folder.run("serve", str(world), "0", *given), 0, f"released serve {world} 0 {' '.join(given)}\n"
    yield Result(0, "".join(path.name for path in folder.top.glob("a.db*")).encode()), 0, ""


# A program that says what it reads on the console, up to a shutdown. It says half a line there and then sends its parent signals.
READER = """#!/bin/sh
printf 'who\nhello' > a.db.console
kill -s USR1 "$PPID"
while read -r line; do
    echo "<$line>"
    case $line in checkpoint) kill -s TERM "$PPID" ;; shutdown) break ;; esac
done
sleep 0.1
"""

# A program that does nothing but ask its parent for a checkpoint, and then for a shutdown.
SLEEPER = """#!/bin/sh
sleep 0.5
kill -s USR1 "$PPID"
sleep 0.5
kill -s TERM "$PPID"
exec sleep 20
"""


# A program that keeps what is typed on the console. It sends its parent a signal in each of three seconds, once the one before was taken.
STUBBORN = """#!/bin/sh
cat < a.db.console > a.db.typed &
for second in 100 101 102; do
    echo "$second" > a.db.second
    kill -s TERM "$PPID"
    until [ -s a.db.typed ] && [ "$(tail -n 1 a.db.asked)" = "$second" ] || [ "$((tries += 1))" -gt 1000 ]; do sleep 0.01; done
done
exec sleep 20
"""

# A command `date` for that program: it prints the second, and keeps that it was asked.
CLOCK = """#!/bin/sh
cat a.db.second
cat a.db.second >> a.db.asked
"""


def dead_process():
    """Returns the number of a process that has ended."""
    process = subprocess.Popen(["true"])
    process.wait()
    return process.pid


def open_console(folder):
    """Makes the pipe of a database a.db and begins to read it."""
    os.mkfifo(folder.top / "a.db.console")
    return os.open(folder.top / "a.db.console", os.O_RDONLY | os.O_NONBLOCK)


def a_signal_ends_half_a_line_first(folder):
    folder.release(READER)
    yield folder.run("serve", "a.db", "0", folder=folder.top), 0, "<who>\n<hello>\n<checkpoint>\n<>\n<shutdown>\n"


def a_signal_of_the_same_moment_kills_nothing(folder):
    """Some programs send a signal twice. One that comes two seconds later kills the server, which was asked once for a shutdown."""
    folder.release(STUBBORN)
    folder.write("a.db.asked", "")
    folder.set_tool("date", CLOCK)
    yield Result(folder.run("serve", "a.db", "0", folder=folder.top).status, b""), 128 + signal.SIGKILL, ""
    yield Result(0, (folder.top / "a.db.typed").read_bytes()), 0, "\nshutdown\n"
    yield Result(0, (folder.top / "a.db.asked").read_bytes()), 0, "100\n101\n102\n"


def a_checkpoint_that_is_asked_for_before_the_server_ends_nothing(folder):
    """The launcher looks at the permissions of the database by `find`, which sends it these signals."""
    folder.release()
    for name in "HUP", "USR1", "USR2":
        folder.set_tool("find", f'#!/bin/sh\nkill -s {name} "$PPID"\n')
        yield (folder.run("serve", "a.db", "0", "--rounds", "3", command=folder.top / "release/launch", folder=folder.top, MOO_PROGRAM="release/moo"), 0,
               "released serve --login-seconds 300 --most-unconnected 1000 --telnet --must-save --log-logins 10 --console a.db 0 --rounds 3\n")


def a_signal_types_nothing_for_another_server(folder):
    """The second launcher finds the pipe of the first, and DB.lock has the number of the first one's server: here of these tests."""
    folder.release(SLEEPER)
    folder.write("a.db.lock", f"{os.getpid()}\n")
    for end in ".db", ".db.console":
        (folder.top / f"link{end}").symlink_to(f"a{end}")
    console = open_console(folder)
    try:
        for name in "a.db", "link.db":
            yield Result(folder.run("serve", name, "0", folder=folder.top).status, b""), 128 + signal.SIGKILL, ""
            yield Result(0, os.read(console, 100)), 0, ""
            yield Result((folder.top / "a.db.console").is_fifo(), b""), True, ""
    finally:
        os.close(console)


def a_pipe_that_was_left_is_used_again(folder):
    """Nobody reads it, and DB.lock has the number of a process that has ended, or none."""
    folder.release(READER)
    os.mkfifo(folder.top / "a.db.console")
    for text in f"{dead_process()}\n", "", "no number\n":
        folder.write("a.db.lock", text)
        yield folder.run("serve", "a.db", "0", folder=folder.top), 0, "<who>\n<hello>\n<checkpoint>\n<>\n<shutdown>\n"


def options_may_come_before_the_database(folder):
    folder.release('#!/bin/sh\n[ -p a.db.console ] || echo "no console"\necho "$@"\n')
    folder.write("a.db", "")
    warned = "moo: everybody on this machine can read a.db, and the passwords in it: chmod o-r a.db\n"
    for given in (["--web", "24080"], ["--web=24080"], ["--web", "24080", "--must-save", "--host", "::1"], ["--telnet"]):
        added = [word for word in ("--telnet", "--must-save") if word not in given]
        wanted = ["serve", "--rounds", "18446744073709551615", "--login-seconds", "300", "--most-unconnected", "1000", *added,
                  "--log-logins", "10", "--console", *given, "a.db", "0"]
        yield folder.run("serve", *given, "a.db", "0", folder=folder.top), 0, f"{warned}{' '.join(wanted)}\n"
    yield folder.run("serve", "--web", "24080", folder=folder.top), 0, "no console\nserve --web 24080\n"
    yield folder.run("serve", "--must-save", "--web", folder=folder.top), 0, "no console\nserve --must-save --web\n"


def what_follows_two_hyphens_is_no_option(folder):
    folder.release('#!/bin/sh\n[ -p "$pipe" ] || echo "no console"\necho "$@"\n')
    added = "--rounds 18446744073709551615 --login-seconds 300 --most-unconnected 1000 --telnet --must-save --log-logins 10 --console"
    for name in "a.db", "-a.db", "--console":
        yield folder.run("serve", "--", name, "0", folder=folder.top, pipe=f"./{name}.console"), 0, f"serve {added} -- {name} 0\n"


def each_option_may_come_before_the_database(folder):
    """The launcher has to know which options of the program take no value."""
    folder.release('#!/bin/sh\n[ -p a.db.console ] || echo "no console"\n')
    given = folder.tested.output(["serve", "--help"]).printed.decode()
    for option, value in re.findall(r"^ +(--[a-z-]+)( <)?", given.replace("--console ", ""), re.MULTILINE):
        yield folder.run("serve", option, *["1"] * bool(value), "a.db", "0", folder=folder.top), 0, ""


def a_server_without_a_pipe_has_no_console(folder):
    folder.release()
    world = folder.top / "none" / "a.db"
    yield (folder.run("serve", str(world), "0", "--rounds", "3"), 0,
           f"moo: there is no console, since {world}.console cannot be made: a signal ends the server at once\n"
           f"released serve --login-seconds 300 --most-unconnected 1000 --telnet --must-save --log-logins 10 {world} 0 --rounds 3\n")


def a_file_in_the_place_of_the_pipe_is_named(folder):
    """A line that is written to the pipe while no server runs makes such a file."""
    folder.release()
    folder.write("a.db.console", "checkpoint\n")
    yield (folder.run("serve", "a.db", "0", "--rounds", "3", folder=folder.top), 0,
           "moo: there is no console, since a.db.console is no pipe of this user: a signal ends the server at once\n"
           "released serve --login-seconds 300 --most-unconnected 1000 --telnet --must-save --log-logins 10 a.db 0 --rounds 3\n")


def a_world_that_everybody_can_read_is_warned_of(folder):
    folder.release()
    folder.write("a.db", "")
    world = folder.top / "a.db"
    given = ["--rounds", "3", "--login-seconds", "0", "--most-unconnected", "5", "--telnet", "--must-save", "--log-logins", "0", "--console"]
    yield (folder.run("serve", str(world), "0", *given), 0,
           f"moo: everybody on this machine can read {world}, and the passwords in it: chmod o-r {world}\nreleased serve {world} 0 {' '.join(given)}\n")
    world.chmod(0o640)
    yield folder.run("serve", str(world), "0", *given), 0, f"released serve {world} 0 {' '.join(given)}\n"


# A random first password, and one that the starter world makes.
RANDOM = "-".join(["[a-km-np-z2-9]{5}"] * 3)
MADE = "[a-z]{6}-[a-z]{6}"


def start_new_world(folder):
    """Serves a starter world for three rounds, with a console that says nothing. Returns its first passwords, and the lines of the launcher."""
    (folder.top / "a.db").chmod(0o600)
    done = folder.run("serve", "a.db", "0", "--rounds", "3", "--console", command=folder.top / "release/launch", folder=folder.top, MOO_PROGRAM=folder.tested.path)
    return re.findall(r"connect wizard (\S+)", done.printed.decode()), re.findall(r"^moo: .*\n", done.printed.decode(), re.MULTILINE)


def copy_starter_world(folder):
    """Copies the starter world to a.db. There is nothing else of that name."""
    for path in folder.top.glob("a.db*"):
        path.unlink()
    shutil.copy(TOP / "worlds/starter.db", folder.top / "a.db")


def is_first(folder, passwords, form):
    """Returns as a result whether there is one password, of this form, and the wizard of a.db can connect with it."""
    [password] = passwords
    text = f"open 1\nline 1 connect wizard {password}\n"
    given = folder.tested.output(["script", folder.top / "a.db"], text.encode())
    return Result(bool(re.fullmatch(form, password)) and (form is MADE or b"1: *** Connected ***" in given.printed), b"")


def the_first_password_of_a_new_world_is_random(folder):
    """The world logs it at each start until the wizard has one of his own. The file keeps its permissions, and nothing else is left."""
    copy_starter_world(folder)
    first, lines = start_new_world(folder)
    yield is_first(folder, first, RANDOM), True, ""
    yield Result(stat.S_IMODE((folder.top / "a.db").stat().st_mode), b""), 0o600, ""
    yield Result(0, " ".join(sorted(path.name for path in folder.top.glob("a.db*"))).encode()), 0, "a.db a.db.lock"
    yield Result((start_new_world(folder), lines) == ((first, []), []), b""), True, ""
    copy_starter_world(folder)
    yield Result(start_new_world(folder)[0] != first, b""), True, ""


def change_world(folder, *lines):
    """Somebody types these lines in the world a.db, which is saved."""
    script = ["open 1", *(f"line 1 {line}" for line in lines), "hangup 1", "moment 3600", *["flush"] * 40, "show", ""]
    text = folder.tested.output(["script", folder.top / "a.db"], "\n".join(script).encode()).printed.decode()
    folder.write("a.db", text[text.index("** LambdaMOO Database"):])


# What the launcher looks for in the file, as a line that a player writes.
DECEIT = "@describe me as the world makes the first password"


def a_line_of_a_player_makes_no_world_new_or_old(folder):
    copy_starter_world(folder)
    change_world(folder, "create Ann open-sesame", DECEIT)
    yield Result((folder.top / "a.db").read_text().count("\nthe world makes the first password\n"), b""), 2, ""
    first, lines = start_new_world(folder)
    yield is_first(folder, first, RANDOM), True, ""
    yield Result((start_new_world(folder), lines) == ((first, []), []), b""), True, ""


def a_world_whose_wizard_has_a_password_stays_as_it_is(folder):
    copy_starter_world(folder)
    change_world(folder, f"connect wizard {start_new_world(folder)[0][0]}", "@password lantern", DECEIT)
    before = (folder.top / "a.db").read_bytes()
    yield Result(start_new_world(folder) == ([], []), b""), True, ""
    yield Result((folder.top / "a.db").read_bytes() == before, b""), True, ""


def without_randomness_the_world_makes_the_first_password(folder):
    wanted = "moo: the wizard's first password is not random, since {}: whoever knows when the server started can compute it\n"
    for tool, commands, why in (("tr", "cat > /dev/null", "/dev/urandom gives no password"), ("head", "exit 1", "/dev/urandom gives no password"),
                                ("dd", "exit 1", f"{folder.top}/a.db.first cannot be written"), ("flock", "exit 66", f"{folder.top}/a.db.lock cannot be locked")):
        copy_starter_world(folder)
        folder.set_tool(tool, f"#!/bin/sh\n{commands}\n")
        passwords, lines = start_new_world(folder)
        yield Result(0, "".join(lines).encode()), 0, wanted.format(why)
        yield is_first(folder, passwords, MADE), True, ""
        yield Result((folder.top / "a.db").read_bytes() == (TOP / "worlds/starter.db").read_bytes(), b""), True, ""
        yield Result((folder.top / "a.db.first").exists(), b""), False, ""
        folder.set_tool(tool, f'#!/bin/sh\nexec {shutil.which(tool)} "$@"\n')


def a_stop_before_or_after_a_new_world_is_in_place_loses_no_password(folder):
    for commands in 'kill -s KILL "$PPID"', f'{shutil.which("mv")} "$@"; kill -s KILL "$PPID"':
        copy_starter_world(folder)
        folder.set_tool("mv", f"#!/bin/sh\n{commands}\n")
        yield Result(start_new_world(folder) == ([], []), b""), True, ""
        folder.set_tool("mv", f'#!/bin/sh\nexec {shutil.which("mv")} "$@"\n')
        passwords, lines = start_new_world(folder)
        yield Result(0, "".join(lines).encode()), 0, ""
        yield is_first(folder, passwords, RANDOM), True, ""
        yield Result((folder.top / "a.db.first").exists(), b""), False, ""


def a_new_world_that_is_served_is_not_replaced(folder):
    copy_starter_world(folder)
    with open(folder.top / "a.db.lock", "w") as lock:
        fcntl.flock(lock, fcntl.LOCK_EX)
        yield Result(start_new_world(folder) == ([], []), b""), True, ""
    yield Result((folder.top / "a.db").read_bytes() == (TOP / "worlds/starter.db").read_bytes(), b""), True, ""


def what_is_typed_for_a_console_without_a_server_is_refused(folder):
    folder.release()
    yield (folder.run("console", "a.db"), 2, "moo: a.db.console is no pipe: no server that moo serve began under this name runs\n")


def a_console_of_a_server_that_was_killed_is_refused(folder):
    """Nobody reads the pipe that such a server has left. The number in DB.lock may be another process's by now, or a zombie's."""
    folder.release()
    console = open_console(folder)
    try:
        for text in "", f"{os.getpid()}\n", f"{dead_process()}\n":
            folder.write("a.db.lock", text)
            yield folder.run("console", "a.db", folder=folder.top), 0, ""
    finally:
        os.close(console)
    for text in "", f"{os.getpid()}\n", f"{dead_process()}\n":
        folder.write("a.db.lock", text)
        yield folder.run("console", "a.db", folder=folder.top), 2, "moo: no server of a.db runs\n"


def a_closed_standard_input_is_empty(folder):
    folder.release()
    yield (folder.run("-c", "exec ./moo serve a.db 0 --rounds 3 <&-", command=folder.tools / "sh", folder=folder.top), 0,
           "released serve --login-seconds 300 --most-unconnected 1000 --telnet --must-save --log-logins 10 --console a.db 0 --rounds 3\n")
    yield Result(0, "".join(path.name for path in folder.top.glob("a.db*")).encode()), 0, ""


def a_command_of_the_launcher_refuses_other_words(folder):
    """No word for help begins a build of an hour."""
    folder.change()
    yield folder.run("build", "--help", has_kit=True), 2, "Usage: ./moo build\n"
    folder.release()
    for word, usage in ("install", "install DIR"), ("console", "console DB"):
        for words in [], ["--help"], [""], ["a", "b"]:
            yield folder.run(word, *words), 2, f"Usage: ./moo {usage}\n"
    yield folder.run("--path", "a"), 2, "Usage: ./moo --path\n"


# The usage line of each command. The installed program has another name.
USAGES = {"serve": "moo serve [OPTIONS] <DB> <PORT>", "check": "moo check [OPTIONS] <DB>", "copy": "moo copy <DB>", "script": "moo script <DB>",
          "expr": "moo expr", "frob": "moo <COMMAND>", "-x": "moo <COMMAND>", "": "moo <COMMAND>", "console": "moo console DB"}


def usage_of(result):
    """Returns a result with its usage lines alone."""
    return Result(result.status, b"".join(re.findall(rb"^[Uu]sage: .*\n", result.printed, re.MULTILINE)))


def each_usage_line_has_one_form(folder):
    """Whatever is wrong with the words, it is that of the help. The options that the launcher gives aren't in it."""
    place = folder.top.parent / "place"
    place.mkdir()
    shutil.copy(TOP / "release/launch", place / "moo")
    shutil.copy(folder.tested.path, place / "moo.program")
    wrong = ["serve", "serve a.db", "serve --telnet a.db", "serve a.db 0 --bad", "serve a.db 0 1", "serve -- a.db", "check", "check --bad a.db", "check a.db b.db",
             "copy", "copy a.db b.db", "script", "expr a", "frob", "frob --bad", "-x", "", "console", "console a b"]
    for line in wrong:
        done = folder.run(*line.split(), command=place / "moo", folder=place)
        yield usage_of(done), 2, f"Usage: {USAGES[line.split(' ')[0]]}\n"
    for word in "serve", "check", "copy", "script", "expr":
        for option in "--help", "-h":
            yield usage_of(folder.run(word, option, command=place / "moo", folder=place)), 0, f"Usage: {USAGES[word]}\n"
    yield Result(0, " ".join(sorted(path.name for path in place.iterdir())).encode()), 0, "moo moo.program"


def a_device_that_gives_zeros_without_end_is_refused(folder):
    """What ends, or is no database at its first line, is read as ever."""
    folder.release()
    (folder.top / "link.db").symlink_to("/dev/zero")
    for words in ["check", "/dev/zero"], ["check", "--all", "/dev/full"], ["copy", "--", "/dev/zero"], ["script", "link.db"]:
        yield (folder.run(*words, folder=folder.top), 3,
               f"moo: {words[-1]} is no database: it gives zeros without end\nrefused: Device\n")
    for name in "/dev/null", "/dev/stdin", "/dev/urandom", "none.db":
        yield folder.run("check", name), 0, f"released check {name}\n"


def headings(result):
    """Returns a result with those lines alone that say who adds to the help."""
    return Result(result.status, b"\n".join(re.findall(rb"^.* adds:$", result.printed, re.MULTILINE)))


def the_help_is_on_one_stream(folder):
    folder.release("#!/bin/sh\n[ $# = 0 ] || exit 0\nexit 2\n")
    for words, status in ([], 2), (["--help"], 0):
        done = subprocess.run([folder.top / "moo", *words], capture_output=True, check=False, env={"PATH": str(folder.tools)})
        yield headings(Result(done.returncode, done.stdout if words else done.stderr)), status, "The launcher adds:\n./moo adds:"


def a_script_finds_the_launcher_from_any_folder(folder):
    """worlds/refused/refused.py runs `moo check` of its own repository, wherever it is typed. With no program there its status is 2."""
    script, world = folder.top / "worlds/refused/refused.py", folder.top.parent / "a.db"
    script.parent.mkdir(parents=True)
    shutil.copy(TOP / "worlds/refused/refused.py", script)
    world.write_text("")
    words = [sys.executable, "-B", str(script), world.name]
    folder.release("#!/bin/sh\necho the released $1\n")
    yield folder.run(*words[1:], command=words[0], folder=world.parent), 0, "the released check\n"
    (folder.top / "moo").unlink()
    yield folder.run(*words[1:], command=words[0], folder=world.parent), 2, f"[Errno 2] No such file or directory: '{folder.top / 'moo'}'\n"


CASES = [
    the_release_is_run,
    what_was_built_here_is_run_before_the_release,
    times_of_files_are_not_looked_at,
    the_release_of_older_sources_is_run,
    changed_sources_are_built_when_that_is_asked_for,
    without_a_release_an_older_program_is_run,
    without_a_program_one_is_built,
    there_is_no_program,
    a_damaged_release_is_not_run,
    a_program_that_others_put_there_is_not_run,
    a_build_that_fails_ends_with_status_2,
    each_file_counts_but_those_of_out,
    the_path_is_printed,
    an_installed_program_needs_no_repository,
    an_installation_replaces_no_program_of_the_repository,
    a_server_has_limits_and_a_console,
    a_signal_ends_half_a_line_first,
    a_signal_of_the_same_moment_kills_nothing,
    a_checkpoint_that_is_asked_for_before_the_server_ends_nothing,
    a_signal_types_nothing_for_another_server,
    a_pipe_that_was_left_is_used_again,
    options_may_come_before_the_database,
    what_follows_two_hyphens_is_no_option,
    each_option_may_come_before_the_database,
    a_server_without_a_pipe_has_no_console,
    a_file_in_the_place_of_the_pipe_is_named,
    a_world_that_everybody_can_read_is_warned_of,
    the_first_password_of_a_new_world_is_random,
    a_world_whose_wizard_has_a_password_stays_as_it_is,
    a_line_of_a_player_makes_no_world_new_or_old,
    without_randomness_the_world_makes_the_first_password,
    a_stop_before_or_after_a_new_world_is_in_place_loses_no_password,
    a_new_world_that_is_served_is_not_replaced,
    what_is_typed_for_a_console_without_a_server_is_refused,
    a_console_of_a_server_that_was_killed_is_refused,
    a_closed_standard_input_is_empty,
    a_command_of_the_launcher_refuses_other_words,
    each_usage_line_has_one_form,
    a_device_that_gives_zeros_without_end_is_refused,
    the_help_is_on_one_stream,
    a_script_finds_the_launcher_from_any_folder,
]


def play_case(tested, place, case):
    """Plays a case: its outcome is the first run that ends or prints otherwise than wanted."""
    if (platform.system(), platform.machine()) != ("Linux", "x86_64"):
        raise Skipped("the release is for x86-64 Linux")
    with tempfile.TemporaryDirectory() as top:
        for number, (got, status, printed) in enumerate(case(Folder(top, tested)), 1):
            wanted = Result(status, printed.encode())
            if got != wanted:
                return [Outcome(place, f"run {number} of ./moo", wanted, got)]
    return [Outcome(place, "", wanted, got)]


def units(tested):
    """Returns the units that play all cases, each with its place."""
    places = ["the launcher: " + case.__name__.replace("_", " ") for case in CASES]
    return [(place, partial(play_case, tested, place, case)) for place, case in zip(places, CASES)]
