"""A server of a copy of the starter world with its page, and telnet clients of it."""

import pathlib
import re
import shutil
import socket
import subprocess
import tempfile
import time

from front import Front

TOP = pathlib.Path(__file__).resolve().parent.parent.parent


def free_port():
    """Returns a port that is free."""
    with socket.socket() as found:
        found.bind(("127.0.0.1", 0))
        return found.getsockname()[1]


class Served:
    """A server that can be stopped and started again. Its page is the program's, or `web/index.html` as it is now."""

    def __init__(self, program, is_changed=False):
        self.program = pathlib.Path(program).resolve()
        self.port, self.web = free_port(), free_port()
        self.page = Front(self.web).port if is_changed else self.web
        self.origin = f"http://127.0.0.1:{self.page}"

    def __enter__(self):
        self.room = tempfile.TemporaryDirectory()
        self.folder = pathlib.Path(self.room.name)
        shutil.copy(TOP / "worlds/starter.db", self.folder / "world.db")
        self.start()
        return self

    def __exit__(self, *_):
        self.stop()
        self.room.cleanup()

    def start(self):
        """Starts the server and waits until both ports listen."""
        words = f"ulimit -s 65536; exec {self.program} serve world.db {self.port} --web {self.web} --web-origin {self.origin}"
        with open(self.folder / "log", "a", encoding="ascii") as log:
            self.process = subprocess.Popen(["bash", "-c", words], cwd=self.folder, stdin=subprocess.DEVNULL, stdout=subprocess.DEVNULL, stderr=log)
        for port in (self.port, self.web):
            self.connect(port).close()

    def stop(self):
        """Kills the server."""
        self.process.kill()
        self.process.wait()

    def connect(self, port):
        """Returns a connection to a port, once it listens."""
        end = time.monotonic() + 60
        while True:
            try:
                return socket.create_connection(("127.0.0.1", port))
            except ConnectionRefusedError:
                if time.monotonic() > end:
                    raise
                time.sleep(0.05)

    def password(self):
        """Returns the wizard's first password, from the log."""
        return re.findall(r"Type  connect wizard (\S+)", (self.folder / "log").read_text())[-1]

    def telnet(self, line):
        """Returns a telnet client that has typed a line."""
        client = Telnet(self.connect(self.port))
        client.line(line)
        client.read()
        return client


class Telnet:
    """A telnet client."""

    def __init__(self, client):
        self.client, self.got = client, ""
        self.client.settimeout(0.3)

    def line(self, text):
        """Types a line."""
        self.client.sendall(text.encode() + b"\r\n")

    def read(self):
        """Returns all that has come so far."""
        try:
            while data := self.client.recv(65536):
                self.got += data.decode()
        except TimeoutError:
            pass
        return self.got

    def sees(self, text):
        """Returns whether this comes within ten seconds."""
        end = time.monotonic() + 10
        while text not in self.read() and time.monotonic() < end:
            pass
        return text in self.got
