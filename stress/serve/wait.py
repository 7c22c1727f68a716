#!/usr/bin/env python3
"""How long answers wait while a checkpoint is written: wait.py PORT, over a database of world.py. The wizard asks for one, and a player types."""
import socket, sys, time

port = int(sys.argv[1])


def connect(player):
    client = socket.create_connection(("127.0.0.1", port))
    client.setsockopt(socket.IPPROTO_TCP, socket.TCP_NODELAY, 1)
    client.sendall(b"%d\r\n" % player)
    lines = client.makefile("rb")
    lines.readline()
    return client, lines


def longest(seconds):
    times, end = [], time.perf_counter() + seconds
    while time.perf_counter() < end:
        at = time.perf_counter()
        player.sendall(b"hello\r\n")
        answers.readline()
        times.append(time.perf_counter() - at)
    times.sort()
    return f"median {times[len(times) // 2] * 1e6:.0f} us, longest {times[-1] * 1e3:.1f} ms"


wizard, _ = connect(3)
player, answers = connect(4)
print("before:", longest(3))
wizard.sendall(b";dump_database();\r\n")
print("during:", longest(10))
