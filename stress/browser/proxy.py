#!/usr/bin/env python3
"""Plays through the proxies of docs/manual/operator.md and examples/service, with TLS and a certificate made for the test.

    stress/browser/proxy.py PROGRAM [NAME ..]     all of nginx, caddy, nginx-stream and stunnel if none is named

The examples are taken from the manual and the files. Only their ports and the paths of the certificate are changed. A proxy that isn't there is
skipped. Through those for browsers a script plays, and then a headless Chromium, if it is there. Debian has nginx-light, libnginx-mod-stream, caddy,
stunnel4 and chromium-headless-shell."""

import json
import pathlib
import re
import shutil
import socket
import ssl
import subprocess
import sys
import tempfile
import time

TOP = pathlib.Path(__file__).resolve().parent.parent.parent
sys.path.insert(0, str(TOP / "tests/harness"))

from chromium import SHELL, Browser
from serve_cases import GREETING, LOOKED
from served import free_port
from serving import same, sees
from web_cases import Page
from websocket import KEY, PING, PONG, WebSocket, accept_key, frame, get, upgrade

HOST = "moo.example.org"

# The module of Debian's nginx for streams, which other builds have within.
STREAM = "/usr/lib/nginx/modules/ngx_stream_module.so"


def block(after):
    """Returns the block of the manual after this sentence."""
    lines = (TOP / "docs/manual/operator.md").read_text().partition(after + "\n\n")[2].splitlines()
    end = next(at for at, line in enumerate(lines) if line and not line.startswith("    "))
    return "\n".join(line[4:] for line in lines[:end])


def changed(text, **new):
    """Returns the text with each of these, of which each has to be there, replaced."""
    for old, value in new.items():
        same(old, old in text, True)
        text = text.replace(old, value)
    return text


class Proxy:
    """A proxy in a folder of its own before the ports of a server, at a port that is free."""

    def __init__(self, folder, server):
        self.folder, self.server, self.port = folder, server, free_port()
        self.trusted, self.log = folder / "moo.pem", folder / "log"

    def certify(self):
        """Makes a certificate, its key, and a file with both."""
        key = self.folder / "moo.key"
        subprocess.run(["openssl", "req", "-x509", "-newkey", "rsa:2048", "-nodes", "-subj", f"/CN={HOST}", "-addext", f"subjectAltName=DNS:{HOST}",
                        "-keyout", key, "-out", self.trusted], check=True, capture_output=True)
        (self.folder / "both.pem").write_text(key.read_text() + self.trusted.read_text())

    def write(self, name, text):
        """Writes a file of the folder and returns its path."""
        (self.folder / name).write_text(text)
        return str(self.folder / name)

    def nginx(self, text, modules=""):
        """Returns the words that run nginx with these modules, lines for the whole program, and this text."""
        head = f"daemon off; master_process off; pid {self.folder}/pid; error_log {self.folder}/errors;\nevents {{}}\n"
        return ["nginx", "-p", str(self.folder), "-c", self.write("nginx.conf", modules + head + text)]

    def connect(self):
        """Returns a connection with TLS to the proxy, once it listens and its certificate is there."""
        end = time.monotonic() + 30
        while True:
            try:
                trusted = ssl.create_default_context(cafile=str(self.trusted))
                return trusted.wrap_socket(socket.create_connection(("127.0.0.1", self.port), 20), server_hostname=HOST)
            except (ConnectionRefusedError, FileNotFoundError, ssl.SSLError):
                if time.monotonic() > end:
                    raise AssertionError("the proxy doesn't listen:\n" + self.log.read_text()) from None
                time.sleep(0.1)


def nginx(proxy):
    proxy.certify()
    site = changed(block("With nginx:"), **{"listen 443 ssl": f"listen 127.0.0.1:{proxy.port} ssl", "/etc/ssl/": f"{proxy.folder}/",
                                            "127.0.0.1:7778": f"127.0.0.1:{proxy.server.web}"})
    folders = "\n".join(f"{kind}_temp_path {proxy.folder}/{kind};" for kind in ("client_body", "proxy", "fastcgi", "uwsgi", "scgi"))
    return proxy.nginx(f"http {{ access_log off;\n{folders}\n{site}\n}}\n")


def nginx_stream(proxy):
    proxy.certify()
    text = (TOP / "examples/service/nginx.conf").read_text()
    service = changed(text, **{"listen 7779 ssl": f"listen 127.0.0.1:{proxy.port} ssl", "/etc/ssl/moo.crt": f"{proxy.folder}/moo.pem",
                              "/etc/ssl/moo.key": f"{proxy.folder}/moo.key", "127.0.0.1:7777": f"127.0.0.1:{proxy.server.port}"})
    return proxy.nginx(service, f"load_module {STREAM};\n" if pathlib.Path(STREAM).exists() else "")


def stunnel(proxy):
    proxy.certify()
    text = (TOP / "examples/service/stunnel.conf").read_text()
    service = changed(text, **{"accept = 7779": f"accept = 127.0.0.1:{proxy.port}", "/etc/stunnel/moo.pem": f"{proxy.folder}/both.pem",
                               "127.0.0.1:7777": f"127.0.0.1:{proxy.server.port}"})
    return ["stunnel", proxy.write("stunnel.conf", f"foreground = yes\npid =\n{service}")]


def caddy(proxy):
    """The certificate is of an authority of Caddy's own, since nobody else gives one for this host."""
    proxy.trusted = proxy.folder / "pki/authorities/local/root.crt"
    site = changed(block("With Caddy, which gets its certificate itself:"), **{"127.0.0.1:7778": f"127.0.0.1:{proxy.server.web}"})
    options = ["admin off", "local_certs", "skip_install_trust", "default_bind 127.0.0.1", f"https_port {proxy.port}", f"http_port {free_port()}",
               f"storage file_system {proxy.folder}"]
    return ["caddy", "run", "--adapter", "caddyfile", "--config", proxy.write("Caddyfile", "{\n" + "\n".join(options) + "\n}\n" + site + "\n")]


class ProxiedWebSocket(WebSocket):
    """A browser's end of a WebSocket through the proxy."""

    def __init__(self, client, origin):
        self.client, self.unread = client, b""
        self.client.sendall(upgrade(HOST, origin))
        self.head = self.read_until(b"\r\n\r\n")


def play_by_script(proxy):
    client = proxy.connect()
    client.sendall(get("/", HOST, "Connection: close"))
    response = b""
    while data := client.recv(65536):
        response += data
    same("page", b"<title>MOO</title>" in response, True)

    browser = ProxiedWebSocket(proxy.connect(), f"https://{HOST}")
    same("handshake", [browser.head.split(b"\r\n")[0], accept_key(KEY) in browser.head], [b"HTTP/1.1 101 Switching Protocols", True])
    browser.say(b"look\n")
    browser.sees(GREETING + LOOKED)
    browser.send(frame(PING, b"there?"))
    browser.sees_frame(PONG, b"there?")

    other = ProxiedWebSocket(proxy.connect(), "https://evil.example.com")
    same("another site", re.match(rb"HTTP/1.1 403 ", other.head) is not None, True)
    return "the page, a line, a ping and a refusal"


def play_in_chromium(proxy):
    flags = [f"--host-resolver-rules=MAP {HOST} 127.0.0.1:{proxy.port}", "--ignore-certificate-errors"]
    with Browser(*flags) as browser:
        page = browser.page(f"https://{HOST}/")
        page.until("isIn")
        page.line("look", 0)
        page.until(f"lines.innerText.includes({json.dumps(LOOKED.decode().strip())})")
        same("faults", page.faults, [])
    return "a line of Chromium"


def play_lines(proxy):
    client = proxy.connect()
    client.sendall(b"look\r\n")
    sees(client, GREETING + LOOKED)
    return "a line of a telnet client"


WEB = [play_by_script, *([play_in_chromium] if SHELL else [])]

PROXIES = {"nginx": (nginx, WEB), "caddy": (caddy, WEB), "nginx-stream": (nginx_stream, [play_lines]), "stunnel": (stunnel, [play_lines])}


def play(name, program):
    """Plays through one proxy."""
    configure, parts = PROXIES[name]
    with tempfile.TemporaryDirectory(prefix="proxy-") as made, Page(program) as server:
        proxy = Proxy(pathlib.Path(made), server)
        with open(proxy.log, "wb") as log:
            process = subprocess.Popen(configure(proxy), stdin=subprocess.DEVNULL, stdout=log, stderr=log)
        try:
            came = [part(proxy) for part in parts]
        finally:
            process.terminate()
            process.wait()
    print(f"{name}: {', '.join(came)} came through", flush=True)


def main():
    if len(sys.argv) < 2:
        sys.exit(__doc__)
    for name in sys.argv[2:] or PROXIES:
        missing = [tool for tool in (name.partition("-")[0], "openssl") if shutil.which(tool) is None]
        if missing:
            print(f"{name}: skipped, there is no {' and no '.join(missing)}")
        else:
            play(name, str(pathlib.Path(sys.argv[1]).resolve()))


if __name__ == "__main__":
    main()
