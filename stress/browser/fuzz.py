#!/usr/bin/env python3
"""Sends random requests and frames to a server of `moo serve --web`, and checks that it goes on.

    stress/browser/fuzz.py PROGRAM [COUNT] [SEED]     COUNT of each kind, 1,000 if none is given

Requests are bytes of a head that is changed at random places, in random pieces. Each gets a whole response of a known status, or none if its head
stays unfinished. Streams of frames are changed in this way too. Each ends by a close of a known code or by a hang-up, at the latest when the server
reads that no more comes. After each hundred a browser and a telnet client get their answers. The examples of RFC 6455, section 5.7, are sent cut at
every byte."""

import errno
import pathlib
import random
import socket
import struct
import sys

TOP = pathlib.Path(__file__).resolve().parent.parent.parent
sys.path.insert(0, str(TOP / "tests/harness"))

from serve_cases import GREETING, LOOKED
from serving import same, sees
from web_cases import Page
from websocket import BINARY, CLOSE, CONTINUATION, PING, PONG, TEXT, WebSocket, frame, get, upgrade

STATUSES = {b"101", b"200", b"400", b"403", b"404", b"405", b"426", b"431"}
CODES = {1000, 1002, 1007, 1009}

# A text in one frame, and in two; a ping and a pong (RFC 6455, section 5.7).
EXAMPLES = [
    bytes.fromhex("8185 37fa213d 7f9f4d5158"),
    frame(TEXT, b"Hel", is_final=False) + frame(CONTINUATION, b"lo"),
    frame(PING, b"Hello"),
    bytes.fromhex("8a85 37fa213d 7f9f4d5158"),
    frame(BINARY, b"x" * 256),
]


def change(chance, data):
    """Returns the bytes, of which some are changed, some are removed and some are doubled."""
    changed = bytearray(data)
    for _ in range(chance.choice([0, 1, 1, 1, 2, 5])):
        at = chance.randrange(len(changed)) if changed else 0
        kind = chance.randrange(4)
        if kind == 0 and changed:
            changed[at] = chance.randrange(256)
        elif kind == 1:
            del changed[at : at + chance.randrange(1, 9)]
        elif kind == 2:
            changed[at:at] = changed[at : at + chance.randrange(1, 99)]
        else:
            changed[at:at] = bytes(chance.randrange(256) for _ in range(chance.randrange(1, 9)))
    return bytes(changed)


def answer(port, pieces):
    """Returns what comes after these pieces, up to the end. The server hangs up once it has read that no more comes."""
    with socket.create_connection(("127.0.0.1", port)) as client:
        client.settimeout(60)
        seen = b""
        try:
            for piece in pieces:
                client.sendall(piece)
            client.shutdown(socket.SHUT_WR)
            while data := client.recv(65536):
                seen += data
        except (BrokenPipeError, ConnectionResetError):
            pass  # the server has hung up before
        except OSError as error:
            if error.errno != errno.ENOTCONN:
                raise
        return seen


def cut(chance, data):
    """Returns bytes in random pieces."""
    at, pieces = 0, []
    while at < len(data):
        size = chance.choice([1, 2, 7, 100, 5000])
        pieces.append(data[at : at + size])
        at += size
    return pieces


def try_request(chance, port):
    here = f"127.0.0.1:{port}"
    request = chance.choice([get("/", here), get("/", here, "Host: " + here), get(f"http://{here}/", here), get("/ws", here),
                             upgrade(here, "http://" + here), upgrade(here, "https://evil.test")])
    seen = answer(port, cut(chance, change(chance, request)))
    same("status", not seen or seen[9:12] in STATUSES, True)


def try_frames(chance, port):
    here = f"127.0.0.1:{port}"
    kinds = [frame(TEXT, b"look\n"), frame(BINARY, b"x" * chance.randrange(300)), frame(PING, b"ping"), frame(PONG), frame(CLOSE, b"\x03\xe8"),
             frame(TEXT, b"lo", is_final=False), frame(CONTINUATION, b"ok\n")]
    stream = b"".join(chance.choice(kinds) for _ in range(chance.randrange(1, 8)))
    seen = answer(port, [upgrade(here, "http://" + here), *cut(chance, change(chance, stream))])
    frames = seen.partition(b"\r\n\r\n")[2]
    at, is_closed = 0, False
    while len(frames) >= at + 2:
        size, start = frames[at + 1], at + 2
        if size == 126:
            size, start = struct.unpack(">H", frames[at + 2 : at + 4])[0], at + 4
        same("frame", [frames[at] & 240, size < 65536, is_closed], [128, True, False])
        if frames[at] & 15 == CLOSE:
            is_closed = True
            same("code", size == 0 or struct.unpack(">H", frames[start : start + 2])[0] in CODES | set(range(1000, 5000)), True)
        at = start + size


def check_alive(server):
    browser = WebSocket(server.web)
    browser.say(b"look\n")
    payload = b""
    while not payload.endswith(LOOKED):
        payload += browser.read_frame()[1]
    client = server.connect()
    client.sendall(b"look\n")
    client.settimeout(60)
    payload = b""
    while not payload.endswith(LOOKED):
        payload += client.recv(65536)


def try_examples(server):
    for example in EXAMPLES:
        for at in range(len(example) + 1):
            browser = WebSocket(server.web)
            browser.send(example[:at])
            browser.send(example[at:])
            browser.send(frame(PING, b"end"))
            opcode, payload = browser.read_frame()
            while (opcode, payload) != (PONG, b"end"):
                same("opcode", opcode in (BINARY, PONG), True)
                opcode, payload = browser.read_frame()


def main():
    if len(sys.argv) < 2:
        sys.exit(__doc__)
    count = int(sys.argv[2]) if len(sys.argv) > 2 else 1000
    seed = int(sys.argv[3]) if len(sys.argv) > 3 else random.randrange(1 << 32)
    chance = random.Random(seed)
    print(f"seed {seed}", flush=True)
    with Page(str(pathlib.Path(sys.argv[1]).resolve())) as server:
        try_examples(server)
        for made in range(count):
            try_request(chance, server.web)
            try_frames(chance, server.web)
            if made % 100 == 99:
                check_alive(server)
        check_alive(server)
        same("status", server.process.poll(), None)
    print(f"{count} requests and {count} streams of frames: the server goes on")


if __name__ == "__main__":
    main()
