"""Requests of a browser and a WebSocket, over sockets alone (RFC 9112, RFC 6455)."""

import base64
import hashlib
import socket
import struct

from outcome import PATIENCE
from serving import same

GUID = b"258EAFA5-E914-47DA-95CA-C5AB0DC85B11"

# The key and the value that accepts it of RFC 6455, section 1.3.
KEY = "dGhlIHNhbXBsZSBub25jZQ=="

CONTINUATION, TEXT, BINARY, CLOSE, PING, PONG = 0, 1, 2, 8, 9, 10


def get(path, host, *fields, method="GET"):
    """Returns the bytes of a request without a body."""
    lines = [f"{method} {path} HTTP/1.1", *([f"Host: {host}"] if host is not None else []), *fields, "", ""]
    return "\r\n".join(lines).encode()


def upgrade(host, origin, key=KEY):
    """Returns the bytes of a request that opens a WebSocket."""
    origins = [f"Origin: {origin}"] if origin is not None else []
    return get("/ws", host, "Connection: keep-alive, Upgrade", "Upgrade: websocket", *origins, f"Sec-WebSocket-Key: {key}", "Sec-WebSocket-Version: 13")


def accept_key(key):
    """Returns the value that accepts a key."""
    return base64.b64encode(hashlib.sha1(key.encode() + GUID).digest())


def frame(opcode, payload=b"", is_final=True, is_masked=True, reserved=0):
    """Returns the bytes of a frame, as a browser sends it or in a form that isn't allowed."""
    size, mask = len(payload), 128 if is_masked else 0
    first = bytes([(128 if is_final else 0) | reserved | opcode])
    if size < 126:
        head = first + bytes([mask | size])
    elif size < 65536:
        head = first + bytes([mask | 126]) + struct.pack(">H", size)
    else:
        head = first + bytes([mask | 127]) + struct.pack(">Q", size)
    if not is_masked:
        return head + payload
    key = b"\x37\xfa\x21\x3d"
    return head + key + bytes(byte ^ key[at % 4] for at, byte in enumerate(payload))


def respond(port, request, size=None, host="127.0.0.1", most=None):
    """Returns the whole response to a request that is sent in pieces of this size, or at once: at most its first `most` bytes."""
    with socket.create_connection((host, port), PATIENCE) as client:
        client.setsockopt(socket.IPPROTO_TCP, socket.TCP_NODELAY, 1)
        for at in range(0, len(request), size or len(request)):
            client.sendall(request[at : at + (size or len(request))])
        seen = b""
        try:
            while (most is None or len(seen) < most) and (data := client.recv(65536)):
                seen += data
        except ConnectionResetError:
            pass
        return seen[:most]


class WebSocket:
    """A browser's end of a WebSocket."""

    def __init__(self, port, request=None, size=None):
        """Opens it by this request, or by one of the page. It is sent in pieces of this size, or at once."""
        self.client = socket.create_connection(("127.0.0.1", port), PATIENCE)
        self.client.setsockopt(socket.IPPROTO_TCP, socket.TCP_NODELAY, 1)
        self.unread = b""
        self.send(request or upgrade(f"127.0.0.1:{port}", f"http://127.0.0.1:{port}"), size)
        head = self.read_until(b"\r\n\r\n")
        same("handshake", [head.split(b"\r\n")[0], accept_key(KEY) in head], [b"HTTP/1.1 101 Switching Protocols", True])

    def more(self):
        """Reads what comes next, and fails at the end."""
        data = self.client.recv(65536)
        same("more", bool(data), True)
        self.unread += data

    def read_until(self, end):
        """Returns what comes up to these bytes."""
        while end not in self.unread:
            self.more()
        at = self.unread.index(end) + len(end)
        seen, self.unread = self.unread[:at], self.unread[at:]
        return seen

    def read_bytes(self, count):
        """Returns this many bytes."""
        while len(self.unread) < count:
            self.more()
        seen, self.unread = self.unread[:count], self.unread[count:]
        return seen

    def read_frame(self):
        """Returns the opcode and the payload of the next frame, which has to be whole and not masked."""
        first, second = self.read_bytes(2)
        same("frame", [first & 240, second & 128], [128, 0])
        size = second & 127
        if size == 126:
            size = struct.unpack(">H", self.read_bytes(2))[0]
        elif size == 127:
            size = struct.unpack(">Q", self.read_bytes(8))[0]
        return first & 15, self.read_bytes(size)

    def send(self, data, size=None):
        """Sends bytes, in pieces of this size or at once. An error of a connection that was hung up is ignored."""
        try:
            for at in range(0, len(data), size or len(data) or 1):
                self.client.sendall(data[at : at + (size or len(data))])
        except OSError:
            pass

    def say(self, line):
        """Sends a line as a text message."""
        self.send(frame(TEXT, line))

    def sees(self, wanted):
        """Fails if the payload of the binary messages that come isn't this."""
        seen = b""
        while len(seen) < len(wanted):
            opcode, payload = self.read_frame()
            same("opcode", opcode, BINARY)
            seen += payload
        same("payload", seen, wanted)

    def sees_frame(self, opcode, payload):
        """Fails if the next frame isn't this."""
        same("frame", self.read_frame(), (opcode, payload))

    def sees_close(self, code):
        """Fails if no close of this code comes, after any messages."""
        opcode, payload = self.read_frame()
        while opcode == BINARY:
            opcode, payload = self.read_frame()
        same("close", (opcode, payload[:2]), (CLOSE, struct.pack(">H", code)))

    def sees_end(self):
        """Fails if anything more comes before the end."""
        try:
            same("end", self.unread + self.client.recv(65536), b"")
        except ConnectionResetError:
            pass
