#!/usr/bin/env python3
"""The console and signals: console.py MOO. Lines on standard input are the operator's own, without a password; the launcher's signals type
`shutdown` and `checkpoint`, and a signal two seconds later kills. Whoever connects through the network gets no such rights."""
import signal
from service import *

moo = program()
checks = Checks()
LAUNCH = os.path.join(TOP, "release", "launch")


class Launched:
    """A server that the launcher runs, over the database of this path or one in a folder of its own. The options before come before it. Another
    command may run the launcher."""

    def __init__(self, *options, before=(), path=None, before_start=None, under=()):
        self.folder = tempfile.mkdtemp(prefix="service-console-")
        self.path = path or os.path.join(self.folder, "world.db")
        if path is None:
            shutil.copy(STARTER, self.path)
            os.chmod(self.path, 0o600)
        self.log_path = os.path.join(self.folder, "log")
        # A signal that is ignored at the start can't be caught by a shell.
        with open(self.log_path, "wb") as log:
            self.process = subprocess.Popen([*under, LAUNCH, "serve", *before, self.path, "0", *options], stdin=subprocess.DEVNULL,
                                            stdout=subprocess.PIPE, stderr=log, env={**os.environ, "MOO_PROGRAM": moo}, preexec_fn=before_start)
        found = re.fullmatch(rb"listening on .*:(\d+)\n", self.process.stdout.readline())
        self.port = int(found[1]) if found else None

    log = Server.log
    waits_for = Server.waits_for
    status = Server.status
    text = Server.text


def has_work(server, text):
    """Lets a player do something that no checkpoint has yet."""
    player = wizard(server.port)
    player.say(f"@describe me as {text}")
    player.say(';"so" + "far"')
    checks.check(f"{text}: it is done", player.waits_for("sofar"))


def launch(*words, program=moo, **how):
    """Begins a launcher with these words."""
    return subprocess.Popen([LAUNCH, *words], env={**os.environ, "MOO_PROGRAM": program}, stdout=subprocess.DEVNULL, stderr=subprocess.PIPE, **how)


for number in (signal.SIGINT, signal.SIGTERM):
    server = Launched()
    has_work(server, "LAST WORK")
    server.process.send_signal(number)
    checks.check(f"{number.name}: status 0", server.status() == 0, server.log())
    checks.check(f"{number.name}: the last checkpoint has the last work", b"LAST WORK" in server.text())
    checks.check(f"{number.name}: the pipe is gone", not os.path.exists(server.path + ".console"))

server = Launched()
has_work(server, "SENT TWICE")
server.process.send_signal(signal.SIGTERM)
time.sleep(0.1)
server.process.send_signal(signal.SIGTERM)
checks.check("a second signal at once kills nothing", server.status() == 0 and b"SENT TWICE" in server.text(), server.log())

server = Launched()
for count, number in enumerate((signal.SIGHUP, signal.SIGUSR1, signal.SIGUSR2), 1):
    server.process.send_signal(number)
    checks.check(f"{number.name}: a checkpoint", server.waits_for("checkpoint done", count), server.log())
with open(server.path + ".console", "w") as console:
    console.write("wizard\n;notify(player, \"con\" + \"sole\")\n")
answers = []
while not any("console" in line for line in answers) and len(answers) < 100:
    answers.append(server.process.stdout.readline().decode())
checks.check("the console is the wizard's, without a password", "console" in answers[-1], answers)
server.process.send_signal(signal.SIGTERM)
checks.check("a shutdown while the wizard is on the console", server.status() == 0, server.log())

for name, typed in (
    ("nobody has typed", b""),
    ("half a line is there", b"who\nhel"),
    ("the wizard is there with half a line", b"wizard\n;1 +"),
    ("the half line ends a program", b"wizard\n@verb me:t\n.program me:t\nx = 1;\n."),
):
    server = Launched()
    with open(server.path + ".console", "wb", buffering=0) as console:
        console.write(typed)
    time.sleep(1)
    server.process.send_signal(signal.SIGHUP)
    checks.check(f"{name}: a checkpoint", server.waits_for("checkpoint done"), server.log())
    server.process.send_signal(signal.SIGTERM)
    checks.check(f"{name}: a shutdown", server.status() == 0, server.log())

server = Launched(before=("--web", "0", "--must-save"))
server.process.send_signal(signal.SIGTERM)
checks.check("a shutdown with options before the database", server.status() == 0, server.log())

server = Launched()
slow = os.path.join(server.folder, "slow")
with open(slow, "w") as file:
    file.write(f'#!/bin/sh\nsleep 1\nexec "{moo}" "$@"\n')
os.chmod(slow, 0o700)
second = launch("serve", server.path, "0", program=slow, stdin=subprocess.DEVNULL)
time.sleep(0.4)
for number in (signal.SIGHUP, signal.SIGTERM):
    second.send_signal(number)
    time.sleep(0.2)
checks.check("a signal to the launcher of a second server kills that server", second.wait(WAIT) == 128 + signal.SIGKILL)
second = launch("serve", server.path, "0", stdin=subprocess.DEVNULL)
checks.check("without a signal it is refused", second.wait(WAIT) == 3)
checks.check("the first one got none of these signals", "checkpoint done" not in server.log(), server.log())
server.process.send_signal(signal.SIGHUP)
checks.check("the first one has its console", server.waits_for("checkpoint done"), server.log())
server.process.send_signal(signal.SIGTERM)
checks.check("the first one ends when it is asked", server.status() == 0, server.log())

server = Launched()
with open(server.path + ".lock") as file:
    number = int(file.read())
console = launch("console", server.path, stdin=subprocess.PIPE)
console.communicate(b"checkpoint\n", WAIT)
checks.check("moo console: a line comes there", console.returncode == 0 and server.waits_for("checkpoint done"), server.log())
server.process.kill()
server.process.wait()
os.kill(number, signal.SIGKILL)
end = time.time() + WAIT
while os.path.exists(f"/proc/{number}") and time.time() < end:
    time.sleep(0.1)
console = launch("console", server.path, stdin=subprocess.PIPE)
said = console.communicate(b"checkpoint\n", WAIT)[1]
checks.check("moo console: no server runs", (console.returncode, said) == (2, f"moo: no server of {server.path} runs\n".encode()), said)
server = Launched(path=server.path)
server.process.send_signal(signal.SIGTERM)
checks.check("the next server uses the pipe that was left", server.status() == 0, server.log())
if shutil.which("strace"):
    # Each fork of the launcher takes half a second. So the signal comes before the launcher has the number of the server that it has begun.
    forks = "clone,clone3,fork,vfork"
    server = Launched(path=server.path, under=("strace", "-D", "-o", os.devnull, "-e", f"trace={forks}", "-e", f"inject={forks}:delay_exit=500000"))
    server.process.send_signal(signal.SIGTERM)
    checks.check("a signal that comes as the server begins isn't lost", server.status() == 0, server.log())
else:
    print("strace isn't there: no signal is sent as a server begins")

server = Launched(before_start=lambda: os.close(0))
server.process.send_signal(signal.SIGTERM)
checks.check("a shutdown with a closed standard input", server.status() == 0, server.log())

server = Launched()
player = wizard(server.port)
player.say(";shutdown_now = 0; while (1) shutdown_now = shutdown_now + 1; endwhile")
server.process.send_signal(signal.SIGSTOP)
server.process.send_signal(signal.SIGCONT)
server.process.send_signal(signal.SIGINT)
server.process.send_signal(signal.SIGINT)
checks.check("two signals end it in any case", server.status() is not None)

server = Launched()
for line in ("shutdown", "wizard", "checkpoint"):
    stranger = Client(server.port)
    stranger.say(line)
    stranger.say("who")
    checks.check(f"a stranger's {line!r} does nothing", stranger.waits_for("Nobody is connected"), stranger.seen)
    stranger.close()
server.process.send_signal(signal.SIGTERM)
checks.check("it goes on until it is asked", server.status() == 0, server.log())
checks.end()
