#!/usr/bin/env python3
"""Two servers over one database: two.py MOO. The second one is refused before it reads, and says which process has the database.

It is refused by another path of the database too. The lock of a server that was killed is free. A server whose spare somebody replaces doesn't
put that file under the database's name."""
import time
from service import *

moo = program()
checks = Checks()

first = Server(moo)
second = Server(moo, path=first.path)
checks.check("a second server is refused", second.line == b"refused: Device\n", second.line)
checks.check("with status 3", second.status() == 3)
checks.check("and the process that has the database", f"process {first.process.pid} serves this database" in second.log(), second.log())
link = os.path.join(first.folder, "link.db")
os.symlink(first.path, link)
third = Server(moo, path=link)
checks.check("also by a link", third.line == b"refused: Device\n", third.line)
player = wizard(first.port)
player.say("@dump-database")
checks.check("the first one goes on", first.waits_for("checkpoint done"), first.log())
first.kill()
after = Server(moo, path=first.path)
checks.check("the lock of a server that was killed is free", after.port is not None, after.log())
after.kill()
answer = subprocess.run([moo, "check", first.path], stdout=subprocess.PIPE, timeout=60)
checks.check("a check needs no lock", answer.returncode == 0, answer.stdout)

if is_root():
    folder = tempfile.mkdtemp(prefix="service-")
    os.chmod(folder, 0o777)
    server = Server(moo, folder=folder)
    player = wizard(server.port)
    # Only a checkpoint that is open has a spare, so this takes turns until one is seen.
    player.say(";for i in [1..6] dump_database(); endfor")
    done = replaced = 0
    for _ in range(400):
        player.say("@dump-database")
        try:
            os.rename(server.path + ".new", server.path + ".old")
            with open(server.path + ".new", "w") as file:
                file.write("no database\n")
            replaced += 1
            break
        except FileNotFoundError:
            time.sleep(0.001)
    if replaced:
        checks.check("a spare that was replaced fails the checkpoint", server.waits_for("checkpoint failed"), server.log())
        answer = subprocess.run([moo, "check", server.path], stdout=subprocess.PIPE, timeout=60)
        checks.check("the database is whole", answer.returncode == 0, answer.stdout)
    else:
        checks.skip("a spare that is replaced", "no checkpoint was open at the right moment")
    server.kill()
checks.end()
