#!/usr/bin/env python3
"""Refuses growths of a server in turn, one in each session: refused.py MOO [SESSIONS]. It needs a C compiler and the C library of GNU.

A session reads a world, changes it, saves it, changes it again and shuts down. With one allocation refused it must go as with ample memory, or
end with status 4 and `refused: Memory`. The file must then have the world that was there, the one that was saved, or the last one. SESSIONS
sessions are tried (400), with numbers spread over all allocations of one."""
import collections, os, re, shutil, socket, subprocess, sys, tempfile

moo = os.path.abspath(sys.argv[1])
sessions = int(sys.argv[2]) if len(sys.argv) > 2 else 400
here = os.path.dirname(os.path.abspath(__file__))
folder = tempfile.mkdtemp(prefix="refused-")
os.chdir(folder)
with open("start.db", "wb") as file:
    subprocess.run([sys.executable, os.path.join(here, "world.py"), "1"], stdout=file, check=True)
subprocess.run(["cc", "-O2", "-shared", "-fPIC", "-o", "refusing.so", os.path.join(here, "../refusals/refusing.c")], check=True)
LINES = [b"3", b';#2.name = "1"; dump_database();', b"look", b'.program #3:eval', b"notify(player, toliteral(eval(argstr)));", b".",
         b';x = {}; for i in [1..30] x = {@x, tostr(i)}; endfor return x;', b';#2.name = "2"; shutdown("over");']


def session(number):
    """Returns the lines that the client gets, the exit status, what is printed, and the name of #2 in the file."""
    for name in ("world.db", "world.db.new"):
        if os.path.exists(name):
            os.remove(name)
    shutil.copy("start.db", "world.db")
    environ = dict(os.environ, LD_PRELOAD=os.path.abspath("refusing.so"), REFUSE=str(number))
    server = subprocess.Popen([moo, "serve", "world.db", "0"], stdout=subprocess.PIPE, stderr=open("log", "wb"), env=environ)
    told = server.stdout.readline()
    seen = b""
    if found := re.fullmatch(rb"listening on 127\.0\.0\.1:(\d+)\n", told):
        try:
            client = socket.create_connection(("127.0.0.1", int(found[1])), timeout=20)
            for line in LINES:
                client.sendall(line + b"\r\n")
            while data := client.recv(65536):
                seen += data
        except ConnectionError:
            pass
    out = (b"" if found else told) + server.communicate(timeout=60)[0]
    check = subprocess.run([moo, "check", "world.db"], stdout=subprocess.PIPE).returncode
    text = open("world.db", "rb").read().split(b"\n")
    return seen, server.returncode, out, (check, text[text.index(b"#2") + 1].decode()), open("log").read()


ample = session(10**9)
count = int(re.search(r"only (\d+) allocations", ample[4])[1])
assert ample[1] == 0 and ample[2] == b"" and ample[3] == (0, "2"), ample
print(f"with ample memory: {count} allocations, status 0, the last world saved")
ends = collections.Counter()
step = max(1, count // sessions)
for number in range(1, count + 1, step):
    seen, status, out, (check, name), log = session(number)
    assert check == 0 and name in "012", (number, check, name)
    if status == 0:
        assert out == b"", (number, out)
        end = "goes on as with ample memory" if (seen, name) == (ample[0], ample[3][1]) else "goes on otherwise"
    elif status == 4 and out == b"refused: Memory\n":
        end = f"ends with status 4 and `refused: Memory`, the file holds world {name}"
    else:
        end = f"ends with status {status} and {out!r}, the file holds world {name}"
    if "otherwise" in end or "ends with status 3" in end:
        print(f"allocation {number}: {end}: {seen[-300:]!r}", log[-300:])
    ends[end] += 1
for end, times in ends.most_common():
    print(f"{times} sessions: {end}")
shutil.rmtree(folder)
