#!/usr/bin/env python3
"""Signals at random moments: lives.py MOO [LIVES]. In each life of one database a player writes numbers; then a signal ends the server.

After INT and TERM, which ask for a shutdown, the last number that was answered is there. After KILL the last number before the last checkpoint that
was reported done is there. Each start goes well."""
import random, signal
from service import *

moo = program()
checks = Checks()
LAUNCH = os.path.join(TOP, "release", "launch")
lives = int(sys.argv[2]) if len(sys.argv) > 2 else 100
folder = tempfile.mkdtemp(prefix="service-lives-")
path = os.path.join(folder, "world.db")
shutil.copy(STARTER, path)
os.chmod(path, 0o600)
random.seed(1)
wrong = []
number = kept = 0
for life in range(lives):
    log_path = os.path.join(folder, f"log{life}")
    with open(log_path, "wb") as log:
        process = subprocess.Popen([LAUNCH, "serve", path, "0"], stdin=subprocess.DEVNULL, stdout=subprocess.PIPE, stderr=log,
                                   env={**os.environ, "MOO_PROGRAM": moo})
    found = re.fullmatch(rb"listening on .*:(\d+)\n", process.stdout.readline())
    if not found:
        wrong.append((life, "no start", open(log_path, encoding="latin-1").read()))
        break
    player = wizard(int(found[1]))
    # This life begins with what the one before left.
    saved = kept
    for _ in range(random.randrange(1, 12)):
        number += 1
        player.say(f"@describe me as number {number} of many")
        player.say(f';"no" + "{number}"')
        if not player.waits_for(f"no{number}"):
            wrong.append((life, "no answer", player.seen))
        if random.random() < 0.3:
            before = open(log_path, encoding="latin-1").read().count("checkpoint done")
            player.say("@dump-database")
            end = time.time() + WAIT
            while open(log_path, encoding="latin-1").read().count("checkpoint done") == before and time.time() < end:
                time.sleep(0.005)
            saved = number
    kind = random.choice((signal.SIGINT, signal.SIGTERM, signal.SIGKILL))
    if kind == signal.SIGKILL:
        # The server itself, not its parent.
        children = subprocess.run(["pgrep", "-P", str(process.pid)], stdout=subprocess.PIPE, text=True).stdout.split()
        for child in children:
            os.kill(int(child), signal.SIGKILL)
    else:
        process.send_signal(kind)
        saved = number
    process.wait(60)
    text = open(path, encoding="latin-1").read()
    kept = max((int(found) for found in re.findall(r"number (\d+) of many", text)), default=0)
    if kept < saved:
        wrong.append((life, kind.name, saved, kept))
    number = max(number, kept)
checks.check(f"{lives} lives: nothing is lost that was to be kept", not wrong, wrong)
checks.end()
