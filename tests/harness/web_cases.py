"""What `moo serve --web` answers to browsers: the page, the requests that it refuses, and WebSockets, byte by byte. Each case is over a new
database, tests/serve/start.db: everyone who connects is the wizard, whose verb `eval` runs what follows a semicolon."""

import base64
import hashlib
import pathlib
import re
import shutil
import socket
import subprocess
import tempfile
import threading
import time

from outcome import PATIENCE, Skipped
from row_file import TOP
from serve_cases import GREETING, LAST, LOOKED, units_of
from serving import DATA, Server, same, sees, starting
from websocket import BINARY, CLOSE, CONTINUATION, KEY, PING, PONG, TEXT, WebSocket, frame, get, respond, upgrade

# A page at the port HERE, and requests with the status of the response to each.
REQUESTS = [
    (get("/", "HERE"), 200),
    (get("/", "LocalHost:PORT"), 200),
    (get("/", "[::1]:PORT"), 200),
    (get("/", "moo.example.org"), 200),
    (get("/", "evil.test:PORT"), 403),
    (get("/", "127.0.0.1"), 403),
    (get("/", None), 400),
    (get("/", "HERE", "Host: HERE"), 400),
    (get("/", "HERE", "host: evil.test"), 400),
    (get("/", "HERE").replace(b"HTTP/1.1", b"HTTP/1.0"), 200),
    (get("/", None).replace(b"HTTP/1.1", b"HTTP/1.0"), 403),
    (get("/", "HERE", "Host: HERE").replace(b"HTTP/1.1", b"HTTP/1.0"), 400),
    (get("http://HERE/", "HERE"), 200),
    (get("HTTP://LocalHost:PORT", "HERE"), 200),
    (get("http://HERE/", "evil.test:PORT"), 200),
    (get("http://evil.test:PORT/", "HERE"), 403),
    (get("http://x@HERE/", "HERE"), 403),
    (get("http://HERE", None), 400),
    (get("http://HERE/", "HERE", "Host: HERE"), 400),
    (get("http://HERE/", None).replace(b"HTTP/1.1", b"HTTP/1.0"), 200),
    (get("http://HERE/x", "HERE"), 404),
    (get("http://HERE?x", "HERE"), 404),
    (get("https://HERE/", "HERE"), 404),
    (get("/x", "HERE"), 404),
    (get("/?x", "HERE"), 404),
    (get("/", "HERE", method="POST"), 405),
    (get("/", "HERE", method="HEAD"), 405),
    (b"PRI * HTTP/2.0\r\n\r\nSM\r\n\r\n", 400),
    (b"connect wizard\r\n", 400),
    (b"\x16\x03\x01\x02\x00\x01\x00\x01\xfc\x03\x03", 400),
    (get("/", "HERE", "X: " + "x" * 9000), 431),
    (get("/", "HERE", *["X: y"] * 64), 431),
    (get("/ws", "HERE", "Origin: http://HERE"), 426),
    (upgrade("HERE", "http://HERE", key="abc"), 426),
    (upgrade("HERE", "https://evil.test"), 403),
    (upgrade("HERE", "null"), 403),
    (upgrade("HERE", None), 403),
    (upgrade("HERE", "http://HERE1"), 403),
    (upgrade("evil.test:PORT", "http://evil.test:PORT"), 403),
    (upgrade("moo.example.org", "http://moo.example.org"), 403),
    (upgrade("HERE", "http://HERE").replace(b"/ws", b"http://evil.test:PORT/ws"), 403),
    (upgrade("HERE", "https://evil.test").replace(b"/ws", b"http://HERE/ws"), 403),
    (upgrade("HERE", "http://HERE").replace(b"HTTP/1.1", b"HTTP/1.0"), 426),
]

# Frames that break the protocol, and the code of the close.
BROKEN = [
    ("an unmasked frame", frame(TEXT, b"x", is_masked=False), 1002),
    ("a reserved bit", frame(TEXT, b"x", reserved=64), 1002),
    ("a reserved opcode", frame(3), 1002),
    ("a continuation of nothing", frame(CONTINUATION, b"x"), 1002),
    ("a text within fragments", frame(TEXT, b"x", is_final=False) + frame(TEXT, b"y"), 1002),
    ("a ping in fragments", frame(PING, is_final=False), 1002),
    ("a ping of 126 bytes", frame(PING, b"x" * 126), 1002),
    ("a length that isn't the shortest", b"\x81\xfe\x00\x05\x00\x00\x00\x00hello", 1002),
    ("a text that isn't UTF-8", frame(TEXT, b"\xff"), 1007),
    ("a frame of 65,537 bytes", frame(BINARY, b"x" * 65537)[:14], 1009),
    ("a message of 65,537 bytes", frame(BINARY, b"x" * 65536, is_final=False) + frame(CONTINUATION, b"x"), 1009),
]


def at_port(request, port):
    """Returns a request with the port of the page in it."""
    return request.replace(b"HERE", b"127.0.0.1:PORT").replace(b"PORT", str(port).encode())


class Page(Server):
    """A server with a page for browsers, at a port that the system gives it."""

    def __init__(self, moo, *options, **found):
        super().__init__(moo, starting("return 0;"), "--web", "0", "--web-origin", "https://moo.example.org/", *options, **found)

    def __enter__(self):
        super().__enter__()
        self.wait("printed", r"listening on \S+")
        self.web = int(re.search(r"the page for browsers is http://[\d.]+:(\d+)/\n", self.read("logged"))[1])
        return self


def the_page_is_served(moo):
    page = (TOP / "web/index.html").read_bytes()
    with Page(moo) as server:
        request = get("/", f"127.0.0.1:{server.web}")
        head, _, body = respond(server.web, request).partition(b"\r\n\r\n")
        same("page", body, page)
        script = re.search(b"<script>(.*?)</script>", page, re.DOTALL)[1]
        checksum = b"script-src 'sha256-" + base64.b64encode(hashlib.sha256(script).digest()) + b"'"
        same("head", [b"Content-Length: %d\r\n" % len(page) in head, checksum in head], [True, True])
        same("in pieces", respond(server.web, request, 1), head + b"\r\n\r\n" + body)


def requests_are_answered(moo):
    with Page(moo) as server:
        for request, status in REQUESTS:
            response = respond(server.web, at_port(request, server.web))
            head, _, body = response.partition(b"\r\n\r\n")
            same(repr(request[:80]), head[:13], b"HTTP/1.1 %d " % status)
            same("length", int(re.search(rb"Content-Length: (\d+)", head)[1]), len(body))
            same("upgrade", b"\nUpgrade: " in head, b"\nConnection: upgrade" in head)


def the_address_of_the_server_is_a_host(moo):
    """Pages of the address on which the server listens may connect. An address of all networks is no host."""
    for host, status, other in [("127.0.0.2", 200, "127.0.0.3"), ("0.0.0.0", 403, "127.0.0.2")]:
        with Page(moo, "--host", host) as server:
            own = f"{host}:{server.web}"
            same(own, respond(server.web, get("/", own), host=host)[:13], b"HTTP/1.1 %d " % status)
            same(other, respond(server.web, get("/", f"{other}:{server.web}"), host=host)[:13], b"HTTP/1.1 403 ")
            upgraded = respond(server.web, upgrade(own, f"http://{own}"), host=host, most=13)
            same("WebSocket", upgraded, b"HTTP/1.1 %d " % (101 if status == 200 else status))


def a_head_has_a_limit(moo):
    """A head has at most 8,192 bytes. It may come in two pieces; one that goes on after them is refused."""
    with Page(moo) as server:
        for size, status in [(8192, 200), (8193, 431)]:
            head = get("/", f"127.0.0.1:{server.web}", "X: ")[:-4]
            request = head + b"x" * (size - len(head) - 4) + b"\r\n\r\n"
            same(f"{size} bytes", respond(server.web, request)[:13], b"HTTP/1.1 %d " % status)
            same(f"{size} bytes in pieces", respond(server.web, request, 8191)[:13], b"HTTP/1.1 %d " % status)
        same("no end", respond(server.web, request[:8192])[:13], b"HTTP/1.1 431 ")


def a_handshake_and_frames_come_in_pieces_of_every_size(moo):
    data, greeting = frame(TEXT, b"lo", is_final=False) + frame(PING, b"!") + frame(CONTINUATION, b"ok\n"), GREETING
    with Page(moo) as server:
        for size in range(1, len(data) + 1):
            browser = WebSocket(server.web, size=size)
            browser.sees(greeting)
            browser.send(data, size)
            browser.sees_frame(PONG, b"!")
            browser.sees(LOOKED)
            greeting = b"*** Redirecting old connection to this port ***\r\n"


def a_browser_plays(moo):
    """Lines don't depend on how they are cut into messages, fragments and pieces."""
    with Page(moo) as server:
        browser = WebSocket(server.web)
        browser.send(frame(TEXT, b"look\r\n"), 1)
        browser.sees(GREETING + LOOKED)
        browser.send(frame(BINARY, b"look\nlook\nlo") + frame(TEXT, b"ok\n"))
        browser.sees(LOOKED * 3)
        browser.send(frame(TEXT, b"lo", is_final=False) + frame(PING, b"there?") + frame(CONTINUATION, b"ok\r\n"))
        browser.sees_frame(PONG, b"there?")
        browser.sees(LOOKED)
        browser.send(frame(BINARY) + frame(PONG, b"unasked"))
        browser.send(frame(BINARY, b"look\n" * 12000))
        browser.sees(LOOKED * 12000)
        browser.say(b"look\n;shutdown();\n")
        browser.sees(LOOKED + LAST)
        browser.sees_close(1000)
        browser.sees_end()


def a_page_of_another_origin_that_is_allowed_plays(moo):
    with Page(moo) as server:
        browser = WebSocket(server.web, upgrade("moo.example.org", "https://moo.example.org"))
        browser.say(b"look\n")
        browser.sees(GREETING + LOOKED)


def a_websocket_is_opened_by_an_absolute_target(moo):
    with Page(moo) as server:
        here = f"127.0.0.1:{server.web}"
        browser = WebSocket(server.web, upgrade(here, "http://" + here).replace(b"/ws", b"http://" + here.encode() + b"/ws"))
        browser.say(b"look\n")
        browser.sees(GREETING + LOOKED)


def one_who_sends_more_gets_the_whole_response(moo):
    """What comes after the response has begun is dropped: no reset takes the response away."""
    page = (TOP / "web/index.html").read_bytes()
    with Page(moo) as server:
        for request, status, ends in [
            (get("/", "HERE", "Content-Length: 50000", method="POST"), 405, b"\r\n\r\n"),
            (get("/", "HERE", "X: " + "x" * 9000), 431, b"\r\n\r\n"),
            (get("/", "evil.test"), 403, b"see --web-origin.\n"),
            (get("/", "HERE"), 200, page[-100:]),
        ]:
            with socket.create_connection(("127.0.0.1", server.web), PATIENCE) as client:
                client.sendall(at_port(request, server.web) + b"x" * 25000)
                seen = client.recv(1)
                client.sendall(b"x" * 25000)
                while data := client.recv(65536):
                    seen += data
                same(f"{status}", [seen[:13], seen.endswith(ends)], [b"HTTP/1.1 %d " % status, True])
                client.sendall(b"x")


def one_who_goes_on_after_the_response_is_closed(moo):
    """The connection is closed after 65,536 bytes, or after two seconds."""
    with Page(moo) as server:
        for size, pause in [(100_000, 0), (1, 0.05)]:
            with socket.create_connection(("127.0.0.1", server.web), PATIENCE) as client:
                client.sendall(get("/", "evil.test"))
                while client.recv(65536):
                    pass
                end = time.monotonic() + 60
                try:
                    while time.monotonic() < end:
                        client.sendall(b"x" * size)
                        time.sleep(pause)
                except OSError:
                    pass
                same(f"{size} bytes", time.monotonic() < end, True)


def those_who_have_their_response_make_room_first(moo):
    """Of 140 connections those that were answered are closed before 40 that came earlier and have sent half a request."""
    with Page(moo) as server:
        request = get("/", f"127.0.0.1:{server.web}")
        waiting = [socket.create_connection(("127.0.0.1", server.web), PATIENCE) for _ in range(40)]
        for client in waiting:
            client.sendall(request[:20])
        answered = []
        for _ in range(100):
            client = socket.create_connection(("127.0.0.1", server.web), PATIENCE)
            client.sendall(get("/", "evil.test"))
            while client.recv(65536):
                pass
            answered.append(client)
        for client in waiting:
            client.sendall(request[20:])
            same("response", client.recv(15), b"HTTP/1.1 200 OK")
        for client in waiting + answered:
            client.close()


def frames_may_follow_the_request_at_once(moo):
    with Page(moo) as server:
        here = f"127.0.0.1:{server.web}"
        browser = WebSocket(server.web, upgrade(here, "http://" + here) + frame(TEXT, b"look\n"))
        browser.sees(GREETING + LOOKED)


def a_browser_and_a_telnet_client_share_the_world(moo):
    with Page(moo) as server:
        client = server.connect()
        client.sendall(b"look\r\n")
        sees(client, GREETING + LOOKED)
        browser = WebSocket(server.web)
        browser.say(b"look\r\n")
        sees(client, b"*** Redirecting connection to new port ***\r\n")
        browser.sees(b"*** Redirecting old connection to this port ***\r\n" + LOOKED)
        browser.say(b";shutdown();\r\n")
        browser.sees(LAST)


def a_browser_that_sends_no_message_is_hung_up(moo):
    with Page(moo, "--idle-seconds", "1") as server:
        browser = WebSocket(server.web)
        browser.sees_close(1000)
        server.wait("logged", r"\[WARN  moo::serve\] connection 0 is hung up: it has sent nothing for 1 s, nor have 0 others")


def what_breaks_the_protocol_ends_a_websocket(moo):
    """Lines before a broken frame are run."""
    with Page(moo) as server:
        for name, data, code in BROKEN:
            browser = WebSocket(server.web)
            browser.send(frame(TEXT, b';server_log("said");\n') + data)
            browser.sees_close(code)
            browser.sees_end()
            server.wait("logged", r"\[INFO  moo\] said")
            same(name, server.read("logged").count("[INFO  moo] said\n"), 1 + [broken[0] for broken in BROKEN].index(name))


def a_close_is_answered(moo):
    with Page(moo) as server:
        browser = WebSocket(server.web)
        browser.sees(GREETING)
        browser.send(frame(CLOSE, b"\x03\xe8"))
        browser.sees_frame(CLOSE, b"\x03\xe8")
        browser.sees_end()


def one_who_pings_and_does_not_read_delays_nobody(moo):
    with Page(moo) as server:
        pinger = WebSocket(server.web)
        pinger.client.settimeout(1)
        try:
            for _ in range(3000):
                pinger.client.sendall(frame(PING, b"x" * 125) * 8)
        except OSError:
            pass
        browser = WebSocket(server.web)
        browser.say(b"look\n")
        browser.sees(b"*** Redirecting old connection to this port ***\r\n" + LOOKED)


def one_who_pings_and_reads_late_gets_every_pong(moo):
    """The server stops reading while too many frames wait, and goes on once they are read."""
    count = 100_000
    with Page(moo) as server:
        pinger = WebSocket(server.web)
        pinger.sees(GREETING)
        pings = frame(PING, b"x" * 125) * 100
        sender = threading.Thread(target=lambda: [pinger.send(pings) for _ in range(count // 100)])
        sender.start()
        sender.join(2)
        for _ in range(count):
            pinger.sees_frame(PONG, b"x" * 125)
        sender.join()
        pinger.say(b"look\n")
        pinger.sees(LOOKED)


def an_address_that_is_taken_is_named(moo):
    with socket.socket() as taken:
        taken.bind(("127.0.0.1", 0))
        taken.listen()
        port = taken.getsockname()[1]
        with Server(moo, starting("return 0;"), "--web", str(port)) as server:
            server.is_over("refused: Device\n", f"[WARN  moo::serve] 127.0.0.1:{port}: Address already in use (os error 98)\n", 3)


def those_who_ask_nothing_make_room(moo):
    with Page(moo) as server:
        idle = [socket.create_connection(("127.0.0.1", server.web)) for _ in range(200)]
        browser = WebSocket(server.web)
        browser.say(b"look\n")
        browser.sees(GREETING + LOOKED)
        same("callers", len(idle), 200)


def one_who_is_silent_is_pinged_and_then_hung_up(moo):
    compiler = next(filter(None, map(shutil.which, ["cc", "gcc", "clang"])), None)
    if compiler is None:
        raise Skipped("there is no C compiler, by which a clock is made")
    with tempfile.TemporaryDirectory() as folder:
        clock, library = pathlib.Path(folder, "clock"), pathlib.Path(folder, "clock.so")
        subprocess.run([compiler, "-shared", "-fPIC", "-o", library, DATA / "clock.c"], check=True)

        def show(seconds):
            (clock.parent / "next").write_text(str(seconds))
            (clock.parent / "next").replace(clock)

        show(1000)
        with Page(moo, environ={"LD_PRELOAD": str(library), "MONOTONIC": str(clock)}) as server:
            request = get("/", f"127.0.0.1:{server.web}")

            def spend(seconds):
                """Shows this second until the server has looked at it. A second page is answered in a later round than the first."""
                show(seconds)
                same("pages", [bool(respond(server.web, request)) for _ in range(2)], [True, True])

            browser = WebSocket(server.web)
            browser.say(b"look\n")
            browser.sees(GREETING + LOOKED)
            spend(1001)
            show(1031)
            browser.sees_frame(PING, b"")
            browser.send(frame(PONG) + frame(TEXT, b"look\n"))
            browser.sees(LOOKED)
            spend(1032)
            spend(1061)
            browser.say(b"look\n")
            browser.sees(LOOKED)
            spend(1062)
            show(1152)
            browser.sees_close(1001)
            browser.sees_end()


CASES = [
    (the_page_is_served, ()),
    (requests_are_answered, ()),
    (the_address_of_the_server_is_a_host, ()),
    (a_head_has_a_limit, ()),
    (a_handshake_and_frames_come_in_pieces_of_every_size, ()),
    (a_browser_plays, ()),
    (a_page_of_another_origin_that_is_allowed_plays, ()),
    (a_websocket_is_opened_by_an_absolute_target, ()),
    (one_who_sends_more_gets_the_whole_response, ()),
    (one_who_goes_on_after_the_response_is_closed, ()),
    (those_who_have_their_response_make_room_first, ()),
    (frames_may_follow_the_request_at_once, ()),
    (a_browser_and_a_telnet_client_share_the_world, ()),
    (what_breaks_the_protocol_ends_a_websocket, ()),
    (a_browser_that_sends_no_message_is_hung_up, ()),
    (a_close_is_answered, ()),
    (one_who_pings_and_does_not_read_delays_nobody, ()),
    (one_who_pings_and_reads_late_gets_every_pong, ()),
    (an_address_that_is_taken_is_named, ()),
    (those_who_ask_nothing_make_room, ()),
    (one_who_is_silent_is_pinged_and_then_hung_up, ()),
]


def units(program):
    """Returns the units that play all cases, each with its place."""
    return units_of(program, "browsers", CASES)
