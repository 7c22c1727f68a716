#!/usr/bin/env python3
"""What one client's lines cost next to others that are silent: beside.py MOO SECONDS CLIENTS.., each a number of silent ones, rising. The
last figures are those after all of them have left."""
import os, re, shutil, socket, subprocess, sys, tempfile, time

moo, seconds = os.path.abspath(sys.argv[1]), float(sys.argv[2])
here = os.path.dirname(os.path.abspath(__file__))
folder = tempfile.mkdtemp(prefix="beside-")
os.chdir(folder)
with open("world.db", "wb") as file:
    subprocess.run([sys.executable, os.path.join(here, "world.py"), "10"], stdout=file, check=True)
server = subprocess.Popen([moo, "serve", "world.db", "0"], stdout=subprocess.PIPE, stderr=subprocess.DEVNULL)
port = int(re.fullmatch(rb"listening on 127\.0\.0\.1:(\d+)\n", server.stdout.readline())[1])


def connect():
    return socket.create_connection(("127.0.0.1", port))


def used():
    words = open(f"/proc/{server.pid}/stat").read().rsplit(")", 1)[1].split()
    return (int(words[11]) + int(words[12])) / os.sysconf("SC_CLK_TCK")


def measure(told):
    typing = connect()
    typing.sendall(b"4\r\n")
    assert b"onnect" in typing.recv(4096)
    typing.setsockopt(socket.IPPROTO_TCP, socket.TCP_NODELAY, 1)
    begun, before, lines = time.perf_counter(), used(), 0
    while time.perf_counter() - begun < seconds:
        typing.sendall(b"x\r\n")
        assert typing.recv(4096)
        lines += 1
    took = time.perf_counter() - begun
    print(f"{told}: {lines / took:,.0f} lines/s, processor {(used() - before) / lines * 1e6:,.0f} us a line", flush=True)
    typing.close()


try:
    sockets = []
    for clients in map(int, sys.argv[3:]):
        sockets += [connect() for _ in range(clients - len(sockets))]
        measure(f"{clients} silent")
    for silent in sockets:
        silent.close()
    time.sleep(2)
    measure("they have left")
finally:
    server.kill()
    server.wait()
    shutil.rmtree(folder)
