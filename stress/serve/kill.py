#!/usr/bin/env python3
"""Kills a server at random moments while a client types and checkpoints run, and starts it again: kill.py MOO [TIMES [SEED [MEGABYTES]]].

Each start must read the world as it was at the mark of the last checkpoint reported done, or at the mark of the one that had
begun since. The marks and the reports are read in the server's log: the world writes the name of #2 there as a checkpoint begins, and
the client counts it up."""
import os, random, re, shutil, socket, subprocess, sys, tempfile, threading

moo = os.path.abspath(sys.argv[1])
times = int(sys.argv[2]) if len(sys.argv) > 2 else 100
chance = random.Random(int(sys.argv[3]) if len(sys.argv) > 3 else 1)
size = sys.argv[4] if len(sys.argv) > 4 else "1"
here = os.path.dirname(os.path.abspath(__file__))
folder = tempfile.mkdtemp(prefix="kill-")
os.chdir(folder)
with open("world.db", "wb") as file:
    subprocess.run([sys.executable, os.path.join(here, "world.py"), "10", size], stdout=file, check=True)


def ask(client, lines, text):
    client.sendall(text + b"\r\n")
    return lines.readline()


# The last number typed, the one at the mark of the last checkpoint reported done, and the one at the last mark.
count, floor, mark = 0, 0, 0
marks, reports, within, spares, unreported = 0, 0, 0, 0, 0
for turn in range(times + 1):
    with open("log", "wb") as log:
        server = subprocess.Popen([moo, "serve", "world.db", "0"], stdout=subprocess.PIPE, stderr=log)
        told = server.stdout.readline().decode()
        found = re.fullmatch(r"listening on 127\.0\.0\.1:(\d+)\n", told) or sys.exit(f"{folder}: turn {turn}: no start: {told!r}")
        client = socket.create_connection(("127.0.0.1", int(found[1])))
        client.setsockopt(socket.IPPROTO_TCP, socket.TCP_NODELAY, 1)
        lines = client.makefile("rb")
        ask(client, lines, b"3")
        now = int(re.fullmatch(rb'\{1, "(\d+)"\}\r\n', ask(client, lines, b";return #2.name;"))[1])
        if now not in (floor, mark):
            sys.exit(f"{folder}: turn {turn}: found {now}, the last checkpoint done had {floor}, the last mark {mark}")
        unreported += now != floor
        killing = threading.Timer(chance.uniform(0, 0.4) if turn < times else 0, server.kill)
        killing.start()
        try:
            while ask(client, lines, b';#2.name = "%d";' % (count + 1)):
                count += 1
                if chance.random() < 0.1:
                    ask(client, lines, b";dump_database();")
        except OSError:
            pass
        killing.join()
        server.wait()
        client.close()
    mark = floor = now
    is_open = False
    for line in open("log"):
        if found := re.search(r"mark (\d+)$", line):
            mark, marks, is_open = int(found[1]), marks + 1, True
        if "checkpoint done" in line:
            floor, reports, is_open = mark, reports + 1, False
    within += is_open
    spares += is_open and os.path.exists("world.db.new")
shutil.rmtree(folder)
print(f"{times} kills, {count} lines, {marks} checkpoints begun, {reports} reported done; {within} kills fell into a checkpoint, {spares} of them "
      f"left a spare, {unreported} left a new world that wasn't reported yet; each start read the world and found what it had to")
