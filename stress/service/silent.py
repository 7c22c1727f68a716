#!/usr/bin/env python3
"""Silent connections: silent.py MOO. 1,100 of them come under a limit of 1,024 open files.

Checkpoints are done all the same, also the last one of a shutdown. With limits for logins, those who never log in are hung up, the oldest
first; a player stays, and a newcomer gets in."""
import resource, time
from service import *

moo = program()
checks = Checks()
soft, hard = resource.getrlimit(resource.RLIMIT_NOFILE)
resource.setrlimit(resource.RLIMIT_NOFILE, (min(hard, 8192), hard))

server = Server(moo, files=1024)
player = wizard(server.port)
crowd = [Client(server.port) for _ in range(1100)]
checks.check("the log says that no further connection is accepted", server.waits_for("no further connection is accepted"), server.log())
descriptors = len(os.listdir(f"/proc/{server.process.pid}/fd"))
checks.check("descriptors are left", 1000 < descriptors < 1024, descriptors)
for number in range(3):
    player.say("@dump-database")
    checks.check(f"checkpoint {number + 1} is done", server.waits_for("checkpoint done", number + 1), server.log())
checks.check("none failed", "checkpoint failed" not in server.log(), server.log())
player.say(';"an" + "swer"')
checks.check("a player is answered", player.waits_for("answer"), player.seen)
for client in crowd[:100]:
    client.close()
newcomer = Client(server.port)
checks.check("after some have left, a newcomer is greeted", bool(newcomer.socket.recv(10)))
player.say("@describe me as PRECIOUS WORK")
player.say("@shutdown")
checks.check("the shutdown ends with status 0", server.status() == 0, server.log())
checks.check("the last checkpoint has what was done last", b"PRECIOUS WORK" in server.text())
for client in crowd[100:]:
    client.close()

server = Server(moo, "--login-seconds", "2", files=1024)
player = wizard(server.port)
stranger = Client(server.port)
begun = time.time()
checks.check("a stranger is hung up", stranger.is_closed(10))
checks.check("after two seconds", 1 <= time.time() - begun < 6, time.time() - begun)
checks.check("the log says so", server.waits_for("is hung up: nobody has logged in"), server.log())
player.say(';"still" + "here"')
checks.check("a player stays", player.waits_for("stillhere"))
server.kill()

server = Server(moo, "--most-unconnected", "3", files=1024)
player = wizard(server.port)
strangers = [Client(server.port) for _ in range(5)]
checks.check("the first stranger is hung up", strangers[0].is_closed(5))
checks.check("so is the second", strangers[1].is_closed(5))
checks.check("the third isn't", not strangers[2].is_closed(0.5))
checks.check("the last isn't", not strangers[4].is_closed(0.5))
player.say(';"still" + "here"')
checks.check("a player who came before them stays", player.waits_for("stillhere"))
server.kill()

server = Server(moo, "--login-seconds", "30", "--most-unconnected", "200", files=1024)
player = wizard(server.port)
crowd = [Client(server.port) for _ in range(1100)]
newcomer = wizard(server.port)
newcomer.say(';"new" + "comer"')
checks.check("a newcomer logs in next to 1,100 strangers", newcomer.waits_for("newcomer"))
lines = server.log().count("is hung up")
checks.check("the log has few lines of hang-ups", lines < 60, lines)
newcomer.say("@shutdown")
checks.check("it is shut down", server.status() == 0, server.log())
checks.end()
