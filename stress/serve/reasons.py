#!/usr/bin/env python3
"""What each command reports if a file, a stream or a port fails, or a database is refused: reasons.py MOO. It stops at the first line that differs."""
import os, re, resource, shutil, socket, subprocess, sys, tempfile

moo = os.path.abspath(sys.argv[1])
here = os.path.dirname(os.path.abspath(__file__))
folder = tempfile.mkdtemp(prefix="reasons-")
os.chdir(folder)
world = subprocess.run([sys.executable, os.path.join(here, "world.py"), "1"], stdout=subprocess.PIPE, check=True).stdout
open("world.db", "wb").write(world)
open("cut.db", "wb").write(world[:len(world) // 2])
os.mkdir("folder.db")
# The name of its spare is too long.
long = "l" * 250 + ".db"
open(long, "wb").write(world)
taken = socket.socket()
taken.bind(("127.0.0.1", 0))
taken.listen()
port = str(taken.getsockname()[1])

NONE = "No such file or directory (os error 2)"
FOLDER = "Is a directory (os error 21)"
FULL = "No space left on device (os error 28)"
CLOSED = "Bad file descriptor (os error 9)"
DEVICE, CUT = "refused: Device\n", f"line {world[:len(world) // 2].count(10) + 1}: Truncated\n"
# The words, standard input, standard output if it isn't a pipe (each a file's name, or closed), what is printed, the lines of the log,
# the status.
ROWS = [
    *[([name, "nowhere.db"], None, None, DEVICE, [f"nowhere.db: {NONE}"], 3) for name in ("check", "copy", "script")],
    (["check", "--all", "nowhere.db"], None, None, DEVICE, [f"nowhere.db: {NONE}"], 3),
    *[([name, "folder.db"], None, None, DEVICE, [f"folder.db: {FOLDER}"], 3) for name in ("check", "copy", "script")],
    (["check", "--all", "folder.db"], None, None, DEVICE, [f"folder.db: {FOLDER}"], 3),
    *[([name, "world.db"], None, "/dev/full", "", [f"standard output: {FULL}"], 3) for name in ("check", "copy")],
    (["check", "--all", "world.db"], None, "/dev/full", "", [f"standard output: {FULL}"], 3),
    (["script", "world.db"], b"open 0\nline 0 3\n", "/dev/full", "", [f"standard output: {FULL}"], 3),
    (["script", "world.db"], "folder.db", None, DEVICE, [f"standard input: {FOLDER}"], 3),
    (["script", "world.db"], "closed", None, DEVICE, [f"standard input: {CLOSED}"], 3),
    (["expr"], b"1\n", "/dev/full", "", [f"standard output: {FULL}"], 3),
    (["expr"], "folder.db", None, DEVICE, [f"standard input: {FOLDER}"], 3),
    (["expr"], "closed", None, DEVICE, [f"standard input: {CLOSED}"], 3),
    (["expr"], b"1\n", "closed", "", [f"standard output: {CLOSED}"], 3),
    (["--help"], None, "/dev/full", "", [f"standard output: {FULL}"], 3),
    *[([name, "cut.db"], None, None, CUT, [], 1) for name in ("check", "copy", "script")],
    (["serve", "nowhere.db", "0"], None, None, DEVICE, [f"nowhere.db: {NONE}"], 3),
    (["serve", "folder.db", "0"], None, None, DEVICE, [f"{folder}/folder.db: {FOLDER}"], 3),
    (["serve", "cut.db", "0"], None, None, CUT, ["cut.db: " + CUT[:-1]], 1),
    (["serve", "cut.db", "0"], None, "/dev/full", "", ["cut.db: " + CUT[:-1], f"standard output: {FULL}"], 1),
    (["serve", long, "0", "--rounds", "1"], None, None, "listening on 127.0.0.1:.*\n", [f"no lock keeps a second server from {long}: .*/{long}.lock: File name too long .*", f"no checkpoint can be made: .*/{long}.new: File name too long .*", "listening on .*"], 0),
    (["serve", "world.db", port], None, None, DEVICE, [f"127.0.0.1:{port}: Address already in use (os error 98)"], 3),
    (["serve", "world.db", "0", "--host", "192.0.2.1"], None, None, DEVICE, ["192.0.2.1:0: Cannot assign requested address (os error 99)"], 3),
    (["serve", "world.db", "0", "--rounds", "0"], None, "/dev/full", "", ["listening on .*", f"standard output: {FULL}"], 3),
    (["serve", "world.db", "0", "--rounds", "3"], None, None, "listening on 127.0.0.1:.*\n", ["listening on .* over world.db"], 0),
]
for words, given, out, printed, log, status in ROWS:
    closed = [stream for stream, name in enumerate((given, out)) if name == "closed"]
    stdin = os.open(given, os.O_RDONLY) if isinstance(given, str) and given != "closed" else subprocess.PIPE
    stdout = open(out, "wb") if out and out != "closed" else subprocess.PIPE
    run = subprocess.Popen([moo, *words], stdin=stdin, stdout=stdout, stderr=subprocess.PIPE, preexec_fn=lambda: [os.close(stream) for stream in closed])
    shown, told = run.communicate(given if isinstance(given, bytes) else None, timeout=60)
    seen = (shown or b"").decode()
    lines = told.decode().splitlines()
    fits = len(lines) == len(log) and all(re.fullmatch(r"\[(WARN|INFO)  moo(::\w+)?\] " + (want if ".*" in want else re.escape(want)), line) for want, line in zip(log, lines))
    right = run.returncode == status and fits and (re.fullmatch(printed, seen) if ".*" in printed else printed == seen)
    print("moo", *words, "<", given if isinstance(given, str) else "..", ">", out or "..", f"-> {run.returncode}", repr(seen), lines, "" if right else f"WANTED {status} {printed!r} {log}")
    if not right:
        sys.exit(1)
shutil.rmtree(folder)
