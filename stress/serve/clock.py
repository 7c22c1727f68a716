#!/usr/bin/env python3
"""Sets the clock of a server forward and back while it runs, by Debian's `faketime`: clock.py MOO. It prints the time that the world has."""
import os, re, shutil, socket, subprocess, sys, tempfile, time

moo = os.path.abspath(sys.argv[1])
here = os.path.dirname(os.path.abspath(__file__))
folder = tempfile.mkdtemp(prefix="clock-")
os.chdir(folder)
with open("world.db", "wb") as file:
    subprocess.run([sys.executable, os.path.join(here, "world.py"), "1"], stdout=file, check=True)
START = 1_900_000_000


def set_clock(seconds):
    with open("clock.part", "w") as file:
        file.write(time.strftime("%Y-%m-%d %H:%M:%S", time.gmtime(seconds)))
    os.replace("clock.part", "clock")


set_clock(START)
library = "/usr/lib/x86_64-linux-gnu/faketime/libfaketime.so.1"
environ = dict(os.environ, LD_PRELOAD=library, FAKETIME_TIMESTAMP_FILE=os.path.abspath("clock"), FAKETIME_NO_CACHE="1", TZ="UTC", FAKETIME_DONT_FAKE_MONOTONIC="1")
server = subprocess.Popen([moo, "serve", "world.db", "0"], stdout=subprocess.PIPE, stderr=open("log", "w"), env=environ)
port = int(re.fullmatch(rb"listening on 127\.0\.0\.1:(\d+)\n", server.stdout.readline())[1])
client = socket.create_connection(("127.0.0.1", port))
client.sendall(b"3\r\n")
assert client.recv(4096) == b"*** Connected ***\r\n"
for clock, want in [(START, START), (START + 50, START + 50), (START - 10_000, START + 50), (START + 49, START + 50), (START + 60, START + 60)]:
    set_clock(clock)
    time.sleep(2.5)
    client.sendall(b";return time();\r\n")
    told = int(re.fullmatch(rb"\{1, (\d+)\}\r\n", client.recv(4096))[1])
    print(f"the clock is at {clock - START:+}, the world at {told - START:+}")
    assert told == want, (told, want)
server.kill()
server.wait()
shutil.rmtree(folder)
