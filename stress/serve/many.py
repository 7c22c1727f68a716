#!/usr/bin/env python3
"""Opens as many connections as there are numbers, and one more: many.py MOO [CLIENTS]. It prints a line for each thing that it has seen.

CLIENTS clients (65,536) come from addresses 127.0.0.2 and on, each greeted before the next hundred come. Twenty are players, the others say
nothing. If a process may not have so many open files, there are fewer, and the others are stand-ins in the server's own process (crowd.c),
which needs a C compiler. The rounds over so many connections take some minutes."""
import os, re, resource, shutil, socket, subprocess, sys, tempfile, time

NUMBERS = 65_536
moo = os.path.abspath(sys.argv[1])
most = int(sys.argv[2]) if len(sys.argv) > 2 else NUMBERS
here = os.path.dirname(os.path.abspath(__file__))
folder = tempfile.mkdtemp(prefix="many-")
os.chdir(folder)
world = subprocess.run([sys.executable, os.path.join(here, "world.py"), "30"], stdout=subprocess.PIPE, check=True).stdout
# Whoever connects gets a number.
login = b"return args ?"
assert world.count(login) == 1
open("world.db", "wb").write(world.replace(login, b'args || notify(player, "you are " + tostr(player)); ' + login))
resource.setrlimit(resource.RLIMIT_NOFILE, (most + 100, resource.getrlimit(resource.RLIMIT_NOFILE)[1]))
environ = dict(os.environ)
if most < NUMBERS:
    subprocess.run(["cc", "-O2", "-shared", "-fPIC", "-o", "crowd.so", os.path.join(here, "crowd.c"), "-ldl"], check=True)
    environ |= {"LD_PRELOAD": os.path.abspath("crowd.so"), "CROWD": str(NUMBERS - most)}
server = subprocess.Popen([moo, "serve", "world.db", "0"], stdout=subprocess.PIPE, stderr=open("log", "w"), env=environ)
port = int(re.fullmatch(rb"listening on 127\.0\.0\.1:(\d+)\n", server.stdout.readline())[1])


def memory():
    return int(re.search(r"VmRSS:\s+(\d+)", open(f"/proc/{server.pid}/status").read())[1]) / 1024


def used():
    words = open(f"/proc/{server.pid}/stat").read().rsplit(")", 1)[1].split()
    return (int(words[11]) + int(words[12])) / os.sysconf("SC_CLK_TCK")


def connect(number):
    client = socket.socket()
    client.settimeout(600)
    client.bind((f"127.0.0.{2 + number // 16_384}", 0))
    client.connect(("127.0.0.1", port))
    return client


def answers():
    """Returns the time in which the players have an answer, one after another, and the processor time that it takes."""
    begun, before = time.perf_counter(), used()
    for player in players:
        player.sendall(b"look\r\n")
        assert player.recv(4096) == b"I couldn't understand that.\r\n"
    return 1000 * (time.perf_counter() - begun) / len(players), 1000 * (used() - before) / len(players)


def come(first, end):
    came = [connect(number) for number in range(first, end)]
    for client in came:
        numbers.add(re.fullmatch(rb"you are #(-\d+)\r\n", client.recv(4096))[1])
    clients.extend(came)


def tell(count):
    print(f"{count} connections after {time.perf_counter() - begun:.0f} s, {used():.0f} s of a processor: {memory():.1f} MiB resident; "
          "an answer takes %.1f ms, %.1f ms of a processor" % answers(), flush=True)


begun = time.perf_counter()
clients, numbers = [], set()
come(0, 100)
players = clients[:20]
for k, player in enumerate(players):
    player.sendall(b"%d\r\n" % (4 + k))
    assert player.recv(4096) == b"*** Connected ***\r\n"
tell(100)
for first in range(100, most - 100, 100):
    come(first, first + 100)
    if len(clients) % 5_000 == 0:
        tell(len(clients))
if most < NUMBERS:
    open("crowd", "w").close()
come(len(clients), most)
assert len(numbers) == most
tell(most)
if most < NUMBERS:
    while not os.path.exists("full"):
        time.sleep(0.5)
    print(f"with {NUMBERS - most} stand-ins:")
    tell(NUMBERS)
last = connect(most)
since = time.perf_counter()
assert last.recv(4096) == b""
print(f"one more: closed without a byte after {1000 * (time.perf_counter() - since):.0f} ms; log: " + open("log").read().splitlines()[-1])
answers()
clients.pop().close()
time.sleep(1)
again = connect(most)
print(f"one leaves, and the next gets {again.recv(4096)!r}")
before = used()
time.sleep(20)
print(f"nobody types for 20 s: {(used() - before) / 20 * 100:.2f} % of a processor")
print("an answer takes %.1f ms, %.1f ms of a processor" % answers())
server.kill()
server.wait()
shutil.rmtree(folder)
