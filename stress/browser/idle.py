#!/usr/bin/env python3
"""Measures what idle WebSockets cost: the server's processor time in ten seconds next to COUNT of them, and what a line costs.

    stress/browser/idle.py PROGRAM [COUNT]     1,000 if none is given

A line is `look` of a guest in the starter world, by a telnet client and by a browser in turn, before the idle ones come and next to them. The script
prints a table of the median time of an answer and of the server's processor time of a line, of ten runs of 200 lines each. The status is 1 if the idle ones use more
than a tenth of a second, or if a browser's line next to them costs the server more than two lines of a telnet client without them."""

import pathlib
import re
import resource
import statistics
import sys
import time

TOP = pathlib.Path(__file__).resolve().parent.parent.parent
sys.path.insert(0, str(TOP / "tests/harness"))

from serving import Server
from websocket import WebSocket

ENDS = b"Exits: "
RUNS, LINES = 10, 200


def processor_seconds(process):
    """Returns the processor time that a process has used."""
    return int(pathlib.Path(f"/proc/{process.pid}/schedstat").read_text().split()[0]) / 1e9


class Telnet:
    """A telnet client with the methods of the class for browsers."""

    def __init__(self, client):
        self.client = client

    def say(self, line):
        self.client.sendall(line)

    def more_payload(self):
        return self.client.recv(65536)


class Browser(WebSocket):
    """A browser whose next bytes are the payload of its next message."""

    def more_payload(self):
        return self.read_frame()[1]


def look(client):
    """Returns the seconds between a line and the end of its answer."""
    begun, seen = time.perf_counter(), b""
    client.say(b"look\n")
    while not (ENDS in seen and seen.endswith(b"\n")):
        seen += client.more_payload()
    return time.perf_counter() - begun


def run_of_lines(server, client):
    """Returns the median time of an answer and the processor time of a line."""
    before = processor_seconds(server.process)
    took = [look(client) for _ in range(LINES)]
    return statistics.median(took), (processor_seconds(server.process) - before) / LINES


def costs(server, *clients):
    """Returns for each client the medians of its runs, which take turns."""
    runs = [[run_of_lines(server, client) for client in clients] for _ in range(RUNS)]
    return [tuple(map(statistics.median, zip(*of_client))) for of_client in zip(*runs)]


def show(spent, count, rows):
    """Prints the costs as a table, and how they compare with those of the first row."""
    first = rows[0][2]
    print(f"{count:,} idle WebSockets take {spent:.3f} s of a processor in 10 s.\n")
    print("| Idle WebSockets | A line of | Median of an answer | Ratio | Processor of a line | Ratio |\n|---|---|---|---|---|---|")
    for idle, name, cost in rows:
        print(f"| {idle:,} | {name} | {1e6 * cost[0]:.0f} µs | {cost[0] / first[0]:.2f} | {1e6 * cost[1]:.0f} µs | {cost[1] / first[1]:.2f} |")


def enter(client):
    """Logs a guest in, and returns the client."""
    client.say(b"connect guest\n")
    time.sleep(1)
    look(client)
    return client


def main():
    if len(sys.argv) < 2:
        sys.exit(__doc__)
    count = int(sys.argv[2]) if len(sys.argv) > 2 else 1000
    resource.setrlimit(resource.RLIMIT_NOFILE, (2 * count + 200, 2 * count + 200))
    program = str(pathlib.Path(sys.argv[1]).resolve())
    with Server(program, (TOP / "worlds/starter.db").read_text(), "--web", "0") as server:
        telnet = enter(Telnet(server.connect()))
        port = int(re.search(r"the page for browsers is http://127.0.0.1:(\d+)/\n", server.read("logged"))[1])
        browser = enter(Browser(port))
        alone = costs(server, telnet, browser)
        idle = [WebSocket(port) for _ in range(count)]
        time.sleep(2)
        before = processor_seconds(server.process)
        time.sleep(10)
        spent = processor_seconds(server.process) - before
        crowded = costs(server, telnet, browser)
    show(spent, count, list(zip([0, 0, count, count], ["telnet", "a browser"] * 2, alone + crowded)))
    sys.exit(spent > 0.1 or crowded[1][1] > 2 * alone[0][1])


if __name__ == "__main__":
    main()
