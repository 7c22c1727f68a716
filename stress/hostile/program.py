"""The program moo, run over a database and a script of events, and what a run takes."""
import os, re, resource, subprocess, tempfile, time

TOP = os.path.dirname(os.path.dirname(os.path.dirname(os.path.realpath(__file__))))
MOO = os.environ.get("MOO") or subprocess.run([os.path.join(TOP, "moo"), "--path"], check=True, stdout=subprocess.PIPE, text=True).stdout.rstrip("\n")
STACK = 65_536 * 1024
# The most bytes and the most ends of lines that `moo serve` gives the server in one event of a connection.
PIECE, ENDS = 4096, 128
# The most address space of one run, in bytes: a program that asks for more is refused memory, and the machine goes on.
ROOM = int(os.environ.get("ROOM", 3 << 30))


class Run:
    """What a run printed, its status, the user's processor time in seconds, and its peak of memory in megabytes."""

    def __init__(self, output, errors, status, usage, peak):
        self.output, self.errors, self.status = output, errors, status
        self.seconds, self.system, self.megabytes = usage.ru_utime, usage.ru_stime, peak

    def last(self):
        return self.output.splitlines()[-1] if self.output.splitlines() else ""


def times_in_piece(line):
    """Returns how often one event of a connection can have this line, or these lines."""
    return max(1, min(PIECE // (len(line) + 1), ENDS // (line.count("\n") + 1)))


def limit(room=ROOM):
    resource.setrlimit(resource.RLIMIT_STACK, (STACK, resource.getrlimit(resource.RLIMIT_STACK)[1]))
    resource.setrlimit(resource.RLIMIT_AS, (room, room))


def script(database, events, patience=900, most=1 << 24, room=ROOM):
    """Runs `moo script` on a database file; the events are a text or bytes, or `@` and the path of a file."""
    with tempfile.TemporaryDirectory() as folder:
        path = os.path.join(folder, "events")
        if isinstance(events, str) and events.startswith("@"):
            path = events[1:]
        else:
            open(path, "wb").write(events if isinstance(events, bytes) else events.encode("latin-1"))
        return run([MOO, "script", database], path, folder, patience, most, room)


def run(words, given, folder, patience, most, room):
    output, errors = os.path.join(folder, "output"), os.path.join(folder, "errors")
    with open(given, "rb") as stdin, open(output, "wb") as stdout, open(errors, "wb") as stderr:
        child = subprocess.Popen(words, stdin=stdin, stdout=stdout, stderr=stderr, preexec_fn=lambda: limit(room))
        status, usage, peak = wait(child, patience)
    return Run(text(output, most), text(errors, most), status, usage, peak)


def wait(child, patience):
    """Returns the status of a child, its usage, and its peak of memory in megabytes as last seen. A child that takes more seconds than
    given is ended, with the status None. The peak that the system reports after a child's end is never below this process's own."""
    end, peak = time.monotonic() + patience, 0
    while True:
        peak = max(peak, memory(child.pid))
        number, status, usage = os.wait4(child.pid, os.WNOHANG)
        if number:
            child.returncode = os.waitstatus_to_exitcode(status)
            return child.returncode, usage, peak
        if time.monotonic() > end:
            child.kill()
            usage = os.wait4(child.pid, 0)[2]
            child.returncode = -9
            return None, usage, peak
        time.sleep(0.005)


def memory(number):
    """Returns the peak of a process's memory so far, in megabytes, or 0 if it has ended."""
    with open(f"/proc/{number}/status") as file:
        found = re.search(r"VmHWM:\s+(\d+)", file.read())
    return int(found.group(1)) / 1024 if found else 0


def text(path, most):
    """Returns what a file holds; of a long one only the end."""
    with open(path, "rb") as file:
        file.seek(max(0, os.path.getsize(path) - most))
        return file.read().decode("latin-1")
