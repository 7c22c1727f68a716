#!/usr/bin/env python3
"""A log that nobody reads: stalled.py MOO. Standard error is a pipe that is full, first by a line that is longer than the pipe. Play goes on, and
the log says later how many lines it lacks."""
import fcntl
from service import *

moo = program()
checks = Checks()
folder = tempfile.mkdtemp(prefix="service-stalled-")
path = os.path.join(folder, "world.db")
shutil.copy(STARTER, path)
reading, writing = os.pipe()
process = subprocess.Popen([moo, "serve", path, "0"], stdin=subprocess.DEVNULL, stdout=subprocess.PIPE, stderr=writing)
os.close(writing)
found = re.fullmatch(rb"listening on .*:(\d+)\n", process.stdout.readline())
player = wizard(int(found[1]))
player.say(';s = "long "; for i in [1..16] s = s + s; endfor server_log(s);')
for number in range(60):
    player.say(';for i in [1..100] server_log("a line of the log that nobody reads " + "so far"); endfor')
player.say(';"went" + "on"')
checks.check("a player is answered while the log is full", player.waits_for("wenton", 60))
player.say("@describe me as STILL SAVED")
player.say("@dump-database")
end = time.time() + WAIT
while b"STILL SAVED" not in open(path, "rb").read() and time.time() < end:
    time.sleep(0.05)
checks.check("a checkpoint is done", b"STILL SAVED" in open(path, "rb").read())
fcntl.fcntl(reading, fcntl.F_SETFL, os.O_NONBLOCK)
seen = b""


def read():
    global seen
    try:
        seen += os.read(reading, 1 << 20)
    except BlockingIOError:
        pass


read()
player.say(';server_log("read again")')
end = time.time() + WAIT
while b"read again" not in seen and time.time() < end:
    read()
    time.sleep(0.02)
checks.check("the log goes on", b"read again" in seen, seen[-300:])
checks.check("and says how many lines it lacks", re.search(rb"\d+ lines of the log were dropped", seen) is not None, seen[-300:])
checks.check("each line begins as one", all(line.startswith(b"[") for line in seen.splitlines()), [line for line in seen.splitlines() if not line.startswith(b"[")][:3])
process.kill()
process.wait()
checks.end()
