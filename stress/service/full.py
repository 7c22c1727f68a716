#!/usr/bin/env python3
"""A full disk at a shutdown, and at a start: full.py MOO. It needs root, for a small file system in memory.

The wizard's `@shutdown` is refused after three tries, and the world goes on. `@shutdown!` ends it. Without the option --must-save the status is
then 0, and the log says what isn't saved. With it the status is 3, and the output's last line says why. The database stays as the last
checkpoint that was done left it. A server that starts on a full disk has the lock, without its process number."""
from service import *

moo = program()
checks = Checks()


def fill(folder):
    """Fills the file system except for a few bytes."""
    with open(os.path.join(folder, "hog"), "wb", buffering=0) as hog:
        try:
            while hog.write(b"x" * 4096):
                pass
        except OSError:
            pass


def shut_down(folder, *options):
    """Runs a server on a file system that fills up before the shutdown. Returns its status and the last line of its output."""
    server = Server(moo, *options, folder=folder)
    player = wizard(server.port)
    player.say("@describe me as LOST WORK")
    player.say(';"so" + "far"')
    player.waits_for("sofar")
    fill(folder)
    player.say("@shutdown")
    checks.check("the world goes on, since it can't be saved", player.waits_for("3 tries, so it goes on"))
    player.say("@shutdown!")
    status = server.status()
    last = server.process.stdout.read()
    checks.check("the last checkpoint fails", "checkpoint failed" in server.log(), server.log())
    checks.check("the log's last line says what isn't saved", "NOT SAVED" in server.log().splitlines()[-1], server.log())
    answer = subprocess.run([moo, "check", server.path], stdout=subprocess.PIPE, timeout=60)
    checks.check("the database is whole", answer.returncode == 0, answer.stdout)
    return status, last


def start_two(folder):
    """Starts two servers over one database of a file system that is full."""
    path = os.path.join(folder, "world.db")
    shutil.copy(STARTER, path)
    fill(folder)
    first, second = Server(moo, path=path), Server(moo, path=path)
    checks.check("a server starts on a full disk", first.port is not None and "no lock" not in first.log(), first.log())
    checks.check("a second one is refused", second.line == b"refused: Device\n" and second.status() == 3, second.log())
    checks.check("the log has no process number", "another process serves this database" in second.log(), second.log())
    first.kill()


if not is_root():
    checks.skip("a full disk", "it needs root")
    checks.end()
for options, status, last in ([], 0, b""), (["--must-save"], 3, b"refused: Device\n"):
    folder = tempfile.mkdtemp(prefix="service-full-")
    if subprocess.run(["mount", "-t", "tmpfs", "-o", "size=2m", "tmpfs", folder]).returncode != 0:
        checks.skip("a full disk", "no file system can be mounted")
        continue
    try:
        found = shut_down(folder, *options)
        checks.check(f"the status with {options} is {status}", found == (status, last), found)
    finally:
        subprocess.run(["umount", "-l", folder])

folder = tempfile.mkdtemp(prefix="service-full-")
if subprocess.run(["mount", "-t", "tmpfs", "-o", "size=2m", "tmpfs", folder]).returncode == 0:
    try:
        start_two(folder)
    finally:
        subprocess.run(["umount", "-l", folder])

server = Server(moo, "--must-save")
wizard(server.port).say("@shutdown")
checks.check("a shutdown that saves has status 0 with --must-save too", server.status() == 0, server.log())
server = Server(moo, "--must-save", "--rounds", "3")
Client(server.port)
checks.check("rounds that are over have status 3 with it", server.status() == 3, server.log())
checks.end()
