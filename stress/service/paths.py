#!/usr/bin/env python3
"""Odd paths, folders and streams: paths.py MOO. Each start that can't go well says why at once, in the log, and so does one after which no
checkpoint can be written. Some parts need root."""
from service import *

moo = program()
checks = Checks()
NOBODY = 65534


def starts(name, path, wanted, **how):
    """Checks that a server starts, and that its log has the warning."""
    server = Server(moo, path=path, **how)
    checks.check(f"{name}: it starts", server.port is not None, server.log())
    checks.check(f"{name}: {wanted or 'no warning'}", wanted in server.log() and (wanted or "WARN" not in server.log()), server.log())
    server.kill()
    return server


def refused(name, path, wanted, *options, **how):
    """Checks that a server is refused with status 3, and that its log has the reason."""
    server = Server(moo, *options, path=path, **how)
    status = server.status(10)
    checks.check(f"{name}: it is refused with status 3", status == 3, (status, server.line))
    checks.check(f"{name}: the log says {wanted}", wanted in server.log(), server.log())
    if status is None:
        server.kill()


def database(*names, folder=None):
    folder = folder or tempfile.mkdtemp(prefix="service-path-")
    path = os.path.join(folder, *names)
    os.makedirs(os.path.dirname(path), exist_ok=True)
    shutil.copy(STARTER, path)
    return path


starts("a plain path", database("world.db"), "")
starts("blanks in the name", database(" a b .db"), "")
path = database("folder.db")
os.mkdir(path + ".new")
starts("a folder in the spare's place", path, "no checkpoint can be made: " + path + ".new: ")
starts("a name of 252 letters", database("m" * 252), "File name too long")
path = database("left.db")
with open(path + ".new", "w") as file:
    file.write("left over")
starts("a spare that was left over", path, "")
with open(path + ".new") as file:
    checks.check("it stays as it was until the next checkpoint", file.read() == "left over")

folder = tempfile.mkdtemp(prefix="service-path-")
fifo = os.path.join(folder, "fifo.db")
os.mkfifo(fifo)
refused("a FIFO", fifo, "fifo.db: not a regular file")
refused("an endless file", "/dev/zero", "/dev/zero: not a regular file")
refused("a folder", folder, "Is a directory")
refused("no file", os.path.join(folder, "none.db"), "No such file")
refused("a closed standard output", database("world.db"), "standard output: ", close=(1,))
server = Server(moo, close=(0, 2))
player = wizard(server.port)
player.say("@dump-database")
player.say(";1 + 1")
player.waits_for("2")
time.sleep(1)
answer = subprocess.run([moo, "check", server.path], stdout=subprocess.PIPE, timeout=60)
checks.check("no log line goes into a file if standard error is closed", answer.returncode == 0 and b"moo::serve" not in server.text(), answer.stdout)
server.kill()

if is_root():
    top = tempfile.mkdtemp(prefix="service-path-")
    os.chmod(top, 0o777)
    path = database("wx", "world.db", folder=top)
    os.chmod(path, 0o666)
    os.chmod(os.path.dirname(path), 0o333)
    starts("a folder that can't be read", path, "no checkpoint can be made: " + os.path.dirname(path) + ": Permission denied", user=NOBODY)
    path = database("sticky", "world.db", folder=top)
    os.chmod(path, 0o644)
    os.chmod(os.path.dirname(path), 0o1777)
    starts("another user's database in a sticky folder", path, "no checkpoint can be made: " + path + ": ", user=NOBODY)
    path = database("fixed", "world.db", folder=top)
    os.chmod(path, 0o644)
    os.chmod(os.path.dirname(path), 0o755)
    starts("a folder that can't be written", path, "no checkpoint can be made: ", user=NOBODY)
else:
    checks.skip("other users' files", "they need root")

for words, wanted in ((["--version"], b"1.8-integer"), (["serve", "--help"], b"--login-seconds")):
    answer = subprocess.run([moo, *words], stdout=subprocess.PIPE, timeout=60)
    checks.check(" ".join(words), answer.returncode == 0 and wanted in answer.stdout, answer.stdout)
server = Server(moo, "--host", "localhost", "--log-times", "utc")
checks.check("--host localhost listens on 127.0.0.1", server.line.startswith(b"listening on 127.0.0.1:"), server.line)
checks.check("--log-times utc", re.match(r"\d{4}-\d\d-\d\dT\d\d:\d\d:\d\dZ \[", server.log()) is not None, server.log())
server.kill()
server = Server(moo, "--log-times", "local")
checks.check("--log-times local", re.match(r"\d{4}-\d\d-\d\dT\d\d:\d\d:\d\d[+-]\d\d(:\d\d)? \[", server.log()) is not None, server.log())
server.kill()


def in_zone(zone):
    """Returns what a server does before it starts, so that it runs in this time zone."""
    return lambda: os.environ.update(TZ=zone)


for zone, offset in (("", r"\+00:00"), ("CET-1", r"\+01:00"), ("Europe/Berlin", r"\+0[12]:00"), (":Europe/Berlin", r"\+0[12]:00"), ("EST5EDT", "-0[45]:00")):
    if zone not in ("", "CET-1") and not os.path.isfile(os.path.join("/usr/share/zoneinfo", zone.lstrip(":"))):
        checks.skip(f"TZ={zone}", "this machine doesn't have the zone")
        continue
    server = Server(moo, "--log-times", "local", before=in_zone(zone))
    checks.check(f"TZ={zone}", re.match(r"\d{4}-\d\d-\d\dT\d\d:\d\d:\d\d" + offset + r" \[", server.log()) is not None, server.log())
    server.kill()
refused("TZ=Nowhere/Here", database("world.db"), "the time zone of the machine: ", "--log-times", "local", before=in_zone("Nowhere/Here"))
checks.end()
