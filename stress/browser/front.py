"""A small server before `moo serve --web` that shows `web/index.html` as it is now, and hands all else on.

By it a page that was changed is tried before a program is built. The server has to allow its origin."""

import importlib.machinery
import importlib.util
import pathlib
import socket
import threading

TOP = pathlib.Path(__file__).resolve().parent.parent.parent


def response():
    """Returns the response to `GET /` that a built program would send."""
    loader = importlib.machinery.SourceFileLoader("build", str(TOP / "web/build"))
    build = importlib.util.module_from_spec(importlib.util.spec_from_loader("build", loader))
    loader.exec_module(build)
    page = (TOP / "web/index.html").read_bytes()
    head = ["HTTP/1.1 200 OK", *(f"{name}: {value}" for name, value in build.fields(page)), "", ""]
    return "\r\n".join(head).encode() + page


def hand_on(source, target):
    """Sends what comes from one end to the other, up to its end."""
    try:
        while data := source.recv(65536):
            target.sendall(data)
    except OSError:
        pass
    for end in (source, target):
        try:
            end.shutdown(socket.SHUT_RDWR)
        except OSError:
            pass


class Front:
    """The small server, at a port that the system gives it."""

    def __init__(self, port):
        self.web, self.listener = port, socket.create_server(("127.0.0.1", 0))
        self.port = self.listener.getsockname()[1]
        threading.Thread(target=self.accept, daemon=True).start()

    def accept(self):
        """Takes each caller."""
        while True:
            threading.Thread(target=self.answer, args=(self.listener.accept()[0],), daemon=True).start()

    def answer(self, caller):
        """Answers one caller."""
        with caller:
            head = b""
            while b"\r\n\r\n" not in head and (data := caller.recv(65536)):
                head += data
            if head.startswith(b"GET / "):
                caller.sendall(response())
                return
            try:
                server = socket.create_connection(("127.0.0.1", self.web))
            except OSError:
                return
            with server:
                server.sendall(head)
                threading.Thread(target=hand_on, args=(caller, server), daemon=True).start()
                hand_on(server, caller)
