#!/usr/bin/env python3
"""Drives a server with many connections: lines a second, the time of an answer, the server's processor time for a line.

usage: load.py PORT CLIENTS SECONDS BYTES WINDOW PROCESS [LOGIN]
Each client keeps WINDOW lines of BYTES bytes on their way, and sends the next as an answer comes. PROCESS is the server's number. With
LOGIN, the number of the first client's player (4 over a database of world.py), each types its player's number first; without it the server is
an echo."""
import os, selectors, socket, sys, time

port, clients, seconds = int(sys.argv[1]), int(sys.argv[2]), float(sys.argv[3])
size, window, process = int(sys.argv[4]), int(sys.argv[5]), int(sys.argv[6])
login = int(sys.argv[7]) if len(sys.argv) > 7 else None
line = b"a" * size + b"\r\n"
poll = selectors.DefaultSelector()


class Client:
    def __init__(self, number):
        self.socket = socket.create_connection(("127.0.0.1", port))
        self.socket.setsockopt(socket.IPPROTO_TCP, socket.TCP_NODELAY, 1)
        if login is not None:
            self.socket.sendall(b"%d\r\n" % (login + number))
            greeting = b""
            while not greeting.endswith(b"\r\n"):
                greeting += self.socket.recv(4096)
        self.socket.setblocking(False)
        self.out, self.sent = b"", []
        self.push(window)
        poll.register(self.socket, selectors.EVENT_READ, self)

    def push(self, lines):
        self.out += line * lines
        self.sent += [time.perf_counter()] * lines
        try:
            self.out = self.out[self.socket.send(self.out):]
        except BlockingIOError:
            pass


def used():
    words = open(f"/proc/{process}/stat").read().rsplit(")", 1)[1].split()
    return (int(words[11]) + int(words[12])) / os.sysconf("SC_CLK_TCK")


all_clients = [Client(k) for k in range(clients)]
begun, before, lines, times = time.perf_counter(), used(), 0, []
while time.perf_counter() - begun < seconds:
    for key, _ in poll.select(1):
        client = key.data
        data = client.socket.recv(65536)
        if not data:
            sys.exit("hung up")
        ends = data.count(b"\n")
        now = time.perf_counter()
        times.extend(now - at for at in client.sent[:ends])
        del client.sent[:ends]
        lines += ends
        if ends or client.out:
            client.push(ends)
took = time.perf_counter() - begun
times.sort()
print(f"{lines / took:,.0f} lines/s, answer median {times[len(times) // 2] * 1e3:.2f} ms, 99 of 100 within "
      f"{times[len(times) * 99 // 100] * 1e3:.1f} ms, processor {(used() - before) / lines * 1e6:.0f} us a line")
