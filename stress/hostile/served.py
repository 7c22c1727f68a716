"""What others wait for while one player is hostile, over `moo serve`, and what output that nobody reads takes."""
import os, re, select, signal, socket, subprocess, time
import program, programs, world

HEADS = ["What one client does", "Another waits, seconds of the server's processor", "Megabytes of the server", "Ended"]
MOST_WAITING = 1 << 20
# What a stranger gets for each line: 20,400 bytes.
SCREEN = 'i=0;while(i<200)i=i+1;notify(player,"' + "w" * 100 + '");endwhile\n'


class Server:
    """`moo serve` over a database, on a port that the system picks."""

    def __init__(self, database, *options):
        words = [program.MOO, "serve", database, "0", *options]
        self.child = subprocess.Popen(words, stdout=subprocess.PIPE, stderr=subprocess.PIPE, text=True, preexec_fn=program.limit)
        self.port = int(self.child.stdout.readline().rsplit(":", 1)[1])

    def megabytes(self):
        with open(f"/proc/{self.child.pid}/status") as file:
            return int(re.search(r"VmHWM:\s+(\d+)", file.read()).group(1)) / 1024

    def seconds(self):
        with open(f"/proc/{self.child.pid}/stat") as file:
            return sum(map(int, file.read().rsplit(")", 1)[1].split()[11:13])) / os.sysconf("SC_CLK_TCK")

    def end(self):
        self.child.send_signal(signal.SIGKILL)
        self.child.wait()


def client(server, *lines):
    link = socket.create_connection(("127.0.0.1", server.port), timeout=600)
    link.sendall("".join(line + "\n" for line in lines).encode())
    return link


def heard(link, wanted, patience=600):
    """Returns the seconds until these bytes have come, or None if they don't come."""
    begin, got = time.monotonic(), b""
    while wanted not in got[-200:]:
        left = patience - (time.monotonic() - begin)
        if left <= 0 or not select.select([link], [], [], left)[0]:
            return None
        piece = link.recv(1 << 16)
        if not piece:
            return None
        got += piece
    return time.monotonic() - begin


def waits(server, line):
    """Returns the server's processor seconds until the wizard has the answer to a sum, typed right after this line of the
    programmer. The machine may be busy with other work."""
    hostile, other = client(server, "#4"), client(server, "#3")
    heard(hostile, b"*** Connected ***"), heard(other, b"*** Connected ***")
    begin = server.seconds()
    hostile.sendall(line.encode() + b"\n")
    time.sleep(0.2)
    other.sendall(b"eval return 20+2;\n")
    return None if heard(other, b"{1, 22}") is None else server.seconds() - begin


LINES = [
    ("nothing", ""),
    ("a loop without end", "eval while(1)endwhile"),
    ("4,096 bytes of such loops", "x\n" * 2047),
    ("`index` in 1 MB, 100 times", "eval " + programs.STRING + 'i=0;while(i<100)i=i+1;index(s,"z");endwhile'),
    ("`strsub` in 1 MB, 20 times", "eval " + programs.STRING + 'i=0;while(i<20)i=i+1;strsub(s,"x","y");endwhile'),
    ("500 lines of 1 MB to itself, not read", "eval " + programs.STRING + "i=0;while(i<500)i=i+1;notify(player,s);endwhile"),
]


def main(folder):
    path = os.path.join(folder, "served.db")
    things = programs.things_of("small")
    things[4].verbs.append(world.verb("x", "while(1)endwhile", 4, "rd", True))
    things[0].verbs[0] = world.verb("do_login_command", SCREEN + world.LOGIN, 3)
    rows, is_well = [], True
    with open(path, "w") as file:
        file.write(world.text(things))
    for name, line in LINES:
        server = Server(path)
        seconds = waits(server, line)
        fits = seconds is not None and server.child.poll() is None
        rows.append((name, f"{seconds:.2f}" if fits else "-", f"{server.megabytes():.0f}" if fits else "-", "well" if fits else "WRONG"))
        server.end()
        is_well &= fits
    cells, fits = deaf(path)
    return rows + [cells], is_well and fits


def deaf(path, count=40):
    """Plays strangers who type and never read: what waits for each is bounded, and others go on."""
    server = Server(path, "--most-waiting", str(MOST_WAITING))
    links = []
    for _ in range(count):
        link = client(server)
        link.setsockopt(socket.SOL_SOCKET, socket.SO_RCVBUF, 4096)
        link.setblocking(False)
        links.append(link)
    peak = 0
    for _ in range(30):
        for link in links:
            try:
                link.send(b"x\n" * 20)
            except OSError:
                pass  # it is hung up, or its own bytes wait
        peak = max(peak, server.megabytes())
        time.sleep(0.02)
    begin, other = server.seconds(), client(server, "#3", "eval return 20+2;")
    fits = heard(other, b"{1, 22}") is not None
    seconds = server.seconds() - begin
    cells = (f"{count} strangers who never read, with `--most-waiting` {MOST_WAITING:,}", f"{seconds:.2f}" if fits else "-", f"{server.megabytes():.0f}", "well" if fits else "WRONG")
    server.end()
    return cells, fits
