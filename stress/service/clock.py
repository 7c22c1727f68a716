#!/usr/bin/env python3
"""A clock that goes back: clock.py MOO. It needs faketime, or root for a clock of its own; without both it says so.

The log says once that no checkpoint comes by time. One that is asked for is done all the same."""
from service import *

moo = program()
checks = Checks()
library = next((path for path in ("/usr/lib/x86_64-linux-gnu/faketime/libfaketime.so.1", "/usr/lib/faketime/libfaketime.so.1") if os.path.exists(path)), None)
if not library:
    checks.skip("a clock that goes back", "there is no libfaketime")
    checks.end()
folder = tempfile.mkdtemp(prefix="service-clock-")
moment = os.path.join(folder, "moment")


def set_clock(text):
    with open(moment + ".new", "w") as file:
        file.write(text)
    os.rename(moment + ".new", moment)


set_clock("2027-01-01 00:00:00")
os.environ.update(LD_PRELOAD=library, FAKETIME_TIMESTAMP_FILE=moment, FAKETIME_NO_CACHE="1", DONT_FAKE_MONOTONIC="1")
server = Server(moo)
for name in ("LD_PRELOAD", "FAKETIME_TIMESTAMP_FILE"):
    del os.environ[name]
player = wizard(server.port)
set_clock("2026-12-01 00:00:00")
checks.check("the log says that the clock was set back", server.waits_for("the clock was set back"), server.log())
time.sleep(3)
checks.check("it says so once", server.log().count("the clock was set back") == 1, server.log())
player.say("@dump-database")
checks.check("a checkpoint that is asked for is done", server.waits_for("checkpoint done"), server.log())
set_clock("2027-02-01 00:00:00")
time.sleep(2)
set_clock("2027-01-01 00:00:00")
checks.check("it says so again the next time", server.waits_for("the clock was set back", 2), server.log())
server.kill()
checks.end()
