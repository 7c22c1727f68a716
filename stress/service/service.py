"""Helpers for the scripts of this folder: a server over a database, its clients, and a count of what held."""
import os, re, resource, shutil, socket, subprocess, sys, tempfile, time

TOP = os.path.dirname(os.path.dirname(os.path.dirname(os.path.realpath(__file__))))
FRESH = os.path.join(TOP, "worlds", "starter.db")
STARTER = os.path.join(tempfile.mkdtemp(prefix="service-world-"), "starter.db")
PASSWORD = "lantern"
WAIT = 20


def program():
    """The program that the command line names."""
    if len(sys.argv) < 2:
        sys.exit(f"usage: {sys.argv[0]} MOO")
    moo = os.path.abspath(sys.argv[1])
    make_world(moo)
    return moo


def make_world(moo):
    """Makes the starter world in which the wizard has a password. The world makes the first one from the moment, which is 0 in a script."""
    lines = ["open 1", "line 1 connect wizard sanotu-sorosi", "line 1 @password " + PASSWORD, "hangup 1", "moment 3600", *40 * ["flush"], "show", ""]
    done = subprocess.run([moo, "script", FRESH], input="\n".join(lines).encode(), stdout=subprocess.PIPE, stderr=subprocess.DEVNULL, timeout=120)
    begin = done.stdout.find(b"** LambdaMOO Database")
    if begin < 0 or b"Your password is changed" not in done.stdout:
        sys.exit("the world of these scripts can't be made")
    with open(STARTER, "wb") as file:
        file.write(done.stdout[begin:])
    os.chmod(STARTER, 0o600)


class Checks:
    """Counts what held and what didn't, and ends the script."""

    def __init__(self):
        self.passed = self.failed = 0

    def check(self, name, holds, seen=""):
        if holds:
            self.passed += 1
        else:
            self.failed += 1
        print(f"{'ok' if holds else 'FAILED'}: {name}{'' if holds else f': {seen!r}'}", flush=True)

    def skip(self, name, reason):
        print(f"skipped: {name}: {reason}", flush=True)

    def end(self):
        print(f"{self.passed} passed, {self.failed} failed")
        sys.exit(1 if self.failed else 0)


class Server:
    """A server over a database in a folder of its own, or over the database of this path."""

    def __init__(self, moo, *options, path=None, folder=None, files=None, before=None, close=(), user=None):
        self.folder = folder or tempfile.mkdtemp(prefix="service-")
        self.path = path or os.path.join(self.folder, "world.db")
        if path is None:
            shutil.copy(STARTER, self.path)
        self.log_path = os.path.join(tempfile.mkdtemp(prefix="service-log-"), "log")

        def prepare():
            if files:
                resource.setrlimit(resource.RLIMIT_NOFILE, (files, files))
            if before:
                before()
            for descriptor in close:
                os.close(descriptor)
            if user:
                os.setgid(user)
                os.setuid(user)

        with open(self.log_path, "wb") as log:
            self.process = subprocess.Popen([moo, "serve", self.path, "0", *options], stdin=subprocess.DEVNULL,
                                            stdout=subprocess.PIPE, stderr=log, preexec_fn=prepare)
        self.line = self.process.stdout.readline()
        found = re.fullmatch(rb"listening on .*:(\d+)\n", self.line)
        self.port = int(found[1]) if found else None

    def log(self):
        with open(self.log_path, encoding="latin-1") as log:
            return log.read()

    def text(self):
        with open(self.path, "rb") as file:
            return file.read()

    def waits_for(self, text, times=1, seconds=WAIT):
        """Waits until the log has the text so many times, and returns whether it has."""
        end = time.time() + seconds
        while self.log().count(text) < times and time.time() < end:
            time.sleep(0.02)
        return self.log().count(text) >= times

    def status(self, seconds=WAIT):
        """Waits for its end, and returns its exit status."""
        try:
            return self.process.wait(seconds)
        except subprocess.TimeoutExpired:
            return None

    def kill(self):
        self.process.kill()
        self.process.wait()
        self.process.stdout.close()


class Client:
    """A connection that reads what comes."""

    def __init__(self, port):
        self.socket = socket.create_connection(("127.0.0.1", port), timeout=WAIT)
        self.seen = b""

    def say(self, line):
        self.socket.sendall(line.encode() + b"\r\n")

    def waits_for(self, text, seconds=WAIT):
        """Reads until the text has come, and returns whether it has."""
        end = time.time() + seconds
        while text.encode() not in self.seen:
            left = end - time.time()
            if left <= 0:
                return False
            self.socket.settimeout(left)
            try:
                data = self.socket.recv(65536)
            except OSError:
                return False
            if not data:
                return False
            self.seen += data
        self.seen = self.seen.split(text.encode(), 1)[1]
        return True

    def is_closed(self, seconds=WAIT):
        """Reads until the end, and returns whether it came."""
        end = time.time() + seconds
        while (left := end - time.time()) > 0:
            self.socket.settimeout(left)
            try:
                if not self.socket.recv(65536):
                    return True
            except socket.timeout:
                return False
            except OSError:
                return True
        return False

    def close(self):
        self.socket.close()


def wizard(port):
    """The wizard of the starter world, connected."""
    client = Client(port)
    client.say("connect wizard " + PASSWORD)
    client.say(';"ready" + "now"')
    if not client.waits_for("readynow"):
        sys.exit("the wizard can't connect")
    return client


def is_root():
    return os.geteuid() == 0
