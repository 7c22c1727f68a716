#!/usr/bin/env python3
"""The system calls of one checkpoint of a server, by Debian's `strace`: checkpoint.py MOO [MEGABYTES]. It prints them, and stops at one that is wrong.

This is their order: the old spare is unlinked; a new file is made with O_EXCL; writes of 65,536 bytes, the last one shorter. Then fsync; rename;
the folder is opened and synced. Between two of these calls is an epoll_wait, with which each round begins. So a round has one call of the disk at
most."""
import os, re, shutil, socket, subprocess, sys, tempfile, time

moo = os.path.abspath(sys.argv[1])
megabytes = sys.argv[2] if len(sys.argv) > 2 else "1"
here = os.path.dirname(os.path.abspath(__file__))
folder = tempfile.mkdtemp(prefix="checkpoint-")
os.chdir(folder)
with open("world.db", "wb") as file:
    subprocess.run([sys.executable, os.path.join(here, "world.py"), "1", megabytes], stdout=file, check=True)
calls = "unlink,unlinkat,openat,fchmod,write,fsync,fdatasync,rename,renameat,renameat2,epoll_wait"
server = subprocess.Popen(["strace", "-o", "trace", "-s", "32", "-e", "trace=" + calls, moo, "serve", "world.db", "0"], stdout=subprocess.PIPE, stderr=open("log", "w"))
port = int(re.fullmatch(rb"listening on 127\.0\.0\.1:(\d+)\n", server.stdout.readline())[1])
client = socket.create_connection(("127.0.0.1", port))
client.sendall(b"3\r\n")
assert client.recv(4096) == b"*** Connected ***\r\n"
client.sendall(b";dump_database();\r\n")
while "checkpoint done" not in open("log").read():
    time.sleep(0.1)
client.sendall(b";shutdown();\r\n")
server.wait()
main, spare = re.escape(folder + "/world.db"), re.escape(folder + "/world.db.new")
lines = open("trace").read().splitlines()
lines = lines[next(k for k, line in enumerate(lines) if re.match(rf'unlink\w*\(.*"{spare}"', line) and any("write(" in later for later in lines[k:k + 6])):]
lines = lines[:next(k for k, line in enumerate(lines) if "checkpoint done" in line) + 1]

# The calls of each round, without its epoll_wait.
rounds = [[]]
for line in lines:
    if line.startswith("epoll_wait("):
        rounds.append([])
    elif "signal" not in line:
        rounds[-1].append(line)
rounds = [calls for calls in rounds if calls]
file = re.match(r"openat\(.*\) = (\d+)$", rounds[0][1])[1]
size = os.path.getsize("world.db")


def are(calls, *wanted):
    assert len(calls) == len(wanted) and all(re.match(want, call) for want, call in zip(wanted, calls)), (calls, wanted)


are([call for call in rounds[0] if "world.db" in call or call.startswith("fchmod")], rf'unlink\w*\(.*"{spare}"', rf'openat\(AT_FDCWD, "{spare}", .*O_CREAT\|O_EXCL', rf"fchmod\({file}, ")
written = [int(re.search(r"= (\d+)$", calls[0])[1]) for calls in rounds[1:-3]]
for calls in rounds[1:-3]:
    are(calls, rf"write\({file}, ")
assert all(count == 65_536 for count in written[:-1]) and 0 < written[-1] <= 65_536, written
are(rounds[-3], rf"fsync\({file}\) += 0")
are(rounds[-2], rf'rename\w*\(.*"{spare}".*"{main}".*\) = 0')
are(rounds[-1], rf'openat\(AT_FDCWD, "{re.escape(folder)}", ', r"fsync\(\d+\) += 0", rf"write\(2, .*checkpoint done")
for calls in rounds[:2] + ([["  .."]] if len(written) > 2 else []) + rounds[-4:]:
    print("\n".join(calls).replace(folder, "/srv"))
print(f"{len(written)} writes, {sum(written):,} bytes in all, one a round; then fsync, rename and the folder's fsync, each in a round of its own")
shutil.rmtree(folder)
