#!/usr/bin/env python3
"""What a server does with clients that behave badly: clients.py MOO [MEGABYTES]. It prints a line for each thing that it has seen, and stops at the first that it doesn't see.

A number that is used again starts clean. 13 MB wait while nobody reads, and a connection that leaves is closed after the last of them. A
client sends MEGABYTES (1,000) without a line's end. One that never reads is hung up once more bytes wait than are allowed. More clients come
than open files are allowed."""
import os, re, resource, shutil, socket, struct, subprocess, sys, tempfile, time

moo = os.path.abspath(sys.argv[1])
megabytes = int(sys.argv[2]) if len(sys.argv) > 2 else 1000
here = os.path.dirname(os.path.abspath(__file__))
folder = tempfile.mkdtemp(prefix="clients-")
os.chdir(folder)
with open("world.db", "wb") as file:
    subprocess.run([sys.executable, os.path.join(here, "world.py"), "30"], stdout=file, check=True)
GREETING = b"*** Connected ***\r\n"
LONG = b';s = "x"; for i in [1..16] s = s + s; endfor for i in [1..200] notify(player, s); endfor '


def start(*options, files=1000):
    global server, port
    limit = lambda: resource.setrlimit(resource.RLIMIT_NOFILE, (files, files))
    server = subprocess.Popen([moo, "serve", "world.db", "0", *options], stdout=subprocess.PIPE, stderr=open("log", "w"), preexec_fn=limit)
    port = int(re.fullmatch(rb"listening on 127\.0\.0\.1:(\d+)\n", server.stdout.readline())[1])


def stop():
    server.kill()
    server.wait()


def connect(number):
    client = socket.create_connection(("127.0.0.1", port))
    client.sendall(b"%d\r\n" % number)
    assert client.recv(4096) == GREETING
    return client


def memory(name="VmRSS"):
    return int(re.search(name + r":\s+(\d+)", open(f"/proc/{server.pid}/status").read())[1]) / 1024


def rest(client):
    """Returns the number of bytes until the end, and the last of them."""
    count, last = 0, b""
    while data := client.recv(65536):
        count, last = count + len(data), (last + data)[-100:]
    return count, last


start()
for turn in range(100):
    # The first client has sent half a line, and hasn't read its output, when its socket is reset.
    first = connect(3)
    first.sendall(LONG + b"\r\nhalf a li")
    time.sleep(0.02)
    first.setsockopt(socket.SOL_SOCKET, socket.SO_LINGER, struct.pack("ii", 1, 0))
    first.close()
    second = connect(4)
    second.sendall(b"look\r\n")
    assert second.recv(4096) == b"I couldn't understand that.\r\n"
    second.close()
print("100 times one leaves half a line and output unread: the next one sees only its own greeting and answers")

client = connect(3)
other = connect(4)
client.sendall(LONG + b"boot_player(player);\r\n")
time.sleep(2)
other.sendall(b"look\r\n")
assert other.recv(4096) == b"I couldn't understand that.\r\n"
print(f"13 MB wait for one that leaves and doesn't read: another is answered meanwhile; {memory():.1f} MiB resident")
count, last = rest(client)
assert count == 200 * 65_538 + len("*** Disconnected ***\r\n") and last.endswith(b"x\r\n*** Disconnected ***\r\n"), (count, last)
print(f"then it reads: {count} bytes, the last of them the line that says that it is disconnected, and then the end")

before = memory()
hog = connect(5)
block = b"y" * 1_000_000
begun = time.perf_counter()
for _ in range(megabytes):
    hog.sendall(block)
other.sendall(b"look\r\n")
assert other.recv(4096) == b"I couldn't understand that.\r\n"
took = time.perf_counter() - begun
hog.sendall(b"\r\n")
assert hog.recv(4096) == b"I couldn't understand that.\r\n"
print(f"{megabytes} MB without a line's end in {took:.0f} s: {before:.1f} MiB resident before, {memory():.1f} after, and then the line is answered once")
stop()

start("--most-waiting", "1000000")
deaf = connect(3)
deaf.sendall(LONG + b"\r\n")
time.sleep(1)
count, last = rest(deaf)
told = re.search("connection 0 is hung up: .*", open("log").read())[0]
print(f"--most-waiting 1000000, 13 MB for one that doesn't read: {count} bytes and the end; log: {told}")
stop()


def used():
    words = open(f"/proc/{server.pid}/stat").read().rsplit(")", 1)[1].split()
    return (int(words[11]) + int(words[12])) / os.sysconf("SC_CLK_TCK")


def are_served(clients):
    """Returns those who are greeted within a second."""
    time.sleep(1)
    served = []
    for client in clients:
        client.setblocking(False)
        try:
            served += [client] if client.recv(4096) == GREETING else []
        except BlockingIOError:
            pass
        client.setblocking(True)
    return served


start(files=20)
all_clients = [socket.create_connection(("127.0.0.1", port)) for _ in range(30)]
for number, client in enumerate(all_clients):
    client.sendall(b"%d\r\n" % (4 + number))
served = are_served(all_clients)
others = [client for client in all_clients if client not in served]
before = used()
time.sleep(5)
took = used() - before
served[-1].sendall(b"look\r\n")
assert served[-1].recv(4096) == b"I couldn't understand that.\r\n"
for client in served:
    client.close()
time.sleep(2)
print(f"20 open files, 30 clients: {len(served)} are served, and go on; {took:.2f} s of a processor in 5 s; when they leave, "
      f"{len(are_served(others))} of the {len(others)} others are")
stop()
shutil.rmtree(folder)
