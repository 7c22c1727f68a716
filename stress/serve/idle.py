#!/usr/bin/env python3
"""The part of a processor that a server takes while CLIENTS clients are connected and silent: idle.py PORT CLIENTS SECONDS PROCESS [LOGIN].

With LOGIN, the number of the first client's player over a database of world.py, each of them types that first."""
import os, socket, sys, time

port, clients, seconds, process = int(sys.argv[1]), int(sys.argv[2]), float(sys.argv[3]), int(sys.argv[4])
login = int(sys.argv[5]) if len(sys.argv) > 5 else None


def used():
    words = open(f"/proc/{process}/stat").read().rsplit(")", 1)[1].split()
    return (int(words[11]) + int(words[12])) / os.sysconf("SC_CLK_TCK")


sockets = [socket.create_connection(("127.0.0.1", port)) for _ in range(clients)]
for number, client in enumerate(sockets):
    if login is not None:
        client.sendall(b"%d\r\n" % (login + number))
        assert client.recv(4096) == b"*** Connected ***\r\n"
time.sleep(2)
before = used()
time.sleep(seconds)
took = used() - before
memory = next(line for line in open(f"/proc/{process}/status") if line.startswith("VmRSS")).split()[1]
print(f"{clients} silent clients: {took:.2f} s of a processor in {seconds:.0f} s, {100 * took / seconds:.2f} %; {int(memory) / 1024:.1f} MiB resident")
