#!/usr/bin/env python3
"""Types lines at a server next to clients that say nothing: silent.py PORT PROCESS SILENT LINES [LOGIN].

Prints the server's processor time for an opening and for a line, in microseconds. PROCESS is the server's number. With LOGIN, the number of the first player (4 over a database of stress/serve/world.py),
each client types a player's number first; without it the server is an echo."""

import socket
import sys
import time

port, process, silent, lines = map(int, sys.argv[1:5])
login = int(sys.argv[5]) if len(sys.argv) > 5 else None


def nanoseconds():
    with open(f"/proc/{process}/schedstat") as file:
        return int(file.read().split()[0])


def answered(client, line):
    client.sendall(line + b"\r\n")
    seen = b""
    while not seen.endswith(b"\n"):
        seen += client.recv(4096)


def connect(number):
    client = socket.create_connection(("127.0.0.1", port))
    client.setsockopt(socket.IPPROTO_TCP, socket.TCP_NODELAY, 1)
    if login is not None:
        answered(client, b"%d" % (login + number))
    return client


def type_lines(client, count, pause):
    for _ in range(count):
        answered(client, b"a" * 20)
        time.sleep(pause)


before = nanoseconds()
crowd = [connect(number + 1) for number in range(silent)]
opening = (nanoseconds() - before) / max(silent, 1) / 1000
client = connect(0)
type_lines(client, 100, 0)
before = nanoseconds()
type_lines(client, lines, 0.0005)
print(f"{silent:,} silent: {opening:.1f} us an opening, {(nanoseconds() - before) / lines / 1000:.2f} us a line")
