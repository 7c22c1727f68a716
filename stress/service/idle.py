#!/usr/bin/env python3
"""Idle connections: idle.py MOO. With `--idle-seconds 2` whoever sends nothing is hung up, a player and a browser too; half a line is enough to
stay, a ping or a command of telnet is not, and the console stays. Without the option nobody is hung up."""
import threading
from service import *
sys.path.insert(0, os.path.join(TOP, "tests", "harness"))
from websocket import PING, WebSocket, frame

moo = program()
checks = Checks()
LIMIT = 2


def keeps_sending(send, seconds):
    """Calls this each half second, for so many seconds."""
    end = time.time() + seconds
    while time.time() < end:
        try:
            send()
        except OSError:
            return
        time.sleep(0.5)


def closed_after(client, begun):
    """Returns the seconds until the connection is closed, or None."""
    return time.time() - begun if client.is_closed(10) else None


server = Server(moo, "--idle-seconds", str(LIMIT), "--telnet", "--web", "0")
web = int(re.search(r"the page for browsers is http://127.0.0.1:(\d+)/", server.log())[1])
typing, commands, ping = Client(server.port), Client(server.port), WebSocket(web)
senders = [
    threading.Thread(target=keeps_sending, args=(lambda: typing.socket.sendall(b"x"), 6)),
    threading.Thread(target=keeps_sending, args=(lambda: commands.socket.sendall(b"\xff\xf1"), 6)),
    threading.Thread(target=keeps_sending, args=(lambda: ping.client.sendall(frame(PING)), 6)),
]
for sender in senders:
    sender.start()
silent, begun = Client(server.port), time.time()
player, ready = wizard(server.port), time.time()
after = closed_after(silent, begun)
checks.check("who sends nothing is hung up after the limit", after and LIMIT < after < LIMIT + 3, after)
after = closed_after(player, ready)
checks.check("so is a player", after and LIMIT < after < LIMIT + 3, after)
checks.check("so is one who sends commands of telnet alone", commands.is_closed(10))
try:
    while True:
        ping.read_frame()
except Exception:
    checks.check("so is a browser that sends pings alone", True)
checks.check("the log says so", server.waits_for("it has sent nothing for 2 s"), server.log())
for sender in senders:
    sender.join()
checks.check("one who types stays", not typing.is_closed(0.5))
newcomer = wizard(server.port)
newcomer.say("@shutdown")
checks.check("the server is shut down", server.status() == 0, server.log())

folder = tempfile.mkdtemp(prefix="service-idle-")
path = os.path.join(folder, "world.db")
shutil.copy(STARTER, path)
with open(os.path.join(folder, "log"), "wb") as log:
    process = subprocess.Popen([moo, "serve", path, "0", "--idle-seconds", "1", "--console"], stdin=subprocess.PIPE, stdout=subprocess.PIPE, stderr=log)
process.stdin.write(b"who\n")
process.stdin.flush()
time.sleep(5)
process.stdin.write(b"shutdown\n")
process.stdin.flush()
checks.check("the console stays", process.wait(WAIT) == 0, open(os.path.join(folder, "log")).read())
checks.check("no line says that it is hung up", "hung up" not in open(os.path.join(folder, "log")).read())

server = Server(moo)
silent, player = Client(server.port), wizard(server.port)
time.sleep(6)
checks.check("without the option one who sends nothing stays", not silent.is_closed(0.5))
player.say(';"still" + "here"')
checks.check("so does a player", player.waits_for("stillhere"))
server.kill()
checks.end()
