#!/usr/bin/env python3
"""The files of examples/service, each tried as far as this machine has its tool: examples.py MOO."""
from service import *

moo = program()
checks = Checks()
EXAMPLES = os.path.join(TOP, "examples", "service")


def run(*words, **environ):
    return subprocess.run(words, stdout=subprocess.PIPE, stderr=subprocess.STDOUT, text=True, timeout=60, env={**os.environ, **environ})


folder = tempfile.mkdtemp(prefix="service-examples-")
server = Server(moo)
player = wizard(server.port)
copies = []
for number in range(3):
    player.say(f"@describe me as COPY {number}")
    player.say("@dump-database")
    server.waits_for("checkpoint done", number + 1)
    answer = run(os.path.join(EXAMPLES, "backup"), server.path, folder, "2", MOO=moo)
    checks.check(f"copy {number + 1} is made while the server runs", answer.returncode == 0, answer.stdout)
    copies.append(answer.stdout.strip())
    time.sleep(1.1)
checks.check("the newest two are kept", sorted(os.listdir(folder)) == sorted(os.path.basename(copy) for copy in copies[1:]), os.listdir(folder))
with open(copies[2], "rb") as file:
    checks.check("the last one has what the checkpoint had", b"COPY 2" in file.read())
broken = os.path.join(folder, "broken.db")
with open(broken, "wb") as file:
    file.write(server.text()[:5000])
checks.check("a copy that is cut off doesn't count", run(os.path.join(EXAMPLES, "backup"), broken, os.path.join(folder, "b"), MOO=moo).returncode == 1)
both = os.path.join(folder, "both")
for name in ("alpha", "zeta", "zeta", "alpha"):
    named = os.path.join(folder, name + ".db")
    shutil.copy(copies[1], named)
    answer = run(os.path.join(EXAMPLES, "backup"), named, both, "1", MOO=moo)
    checks.check(f"the copy of {name} that was just made is there", os.path.exists(answer.stdout.strip()), answer.stdout)
    time.sleep(1.1)
checks.check("each of two databases has its newest copy in one folder", [name.split("-")[0] for name in sorted(os.listdir(both))] == ["alpha", "zeta"])
clock = os.path.join(folder, "date")
with open(clock, "w") as file:
    file.write("#!/bin/sh\necho 20260101T000000Z\n")
os.chmod(clock, 0o700)
words, path = [os.path.join(EXAMPLES, "backup"), named, os.path.join(folder, "same")], f"{folder}:{os.environ['PATH']}"
runs = [subprocess.Popen(words, stdout=subprocess.DEVNULL, env={**os.environ, "MOO": moo, "PATH": path}) for _ in range(4)]
checks.check("four runs in one second all have a copy", [run.wait(60) for run in runs] == [0] * 4)
shutil.copy(named, os.path.join(folder, "-odd.db"))
answer = subprocess.run([os.path.join(EXAMPLES, "backup"), "-odd.db", "-copies"], stdout=subprocess.PIPE, text=True, cwd=folder, env={**os.environ, "MOO": moo})
checks.check("names may begin with a hyphen", os.path.exists(os.path.join(folder, answer.stdout.strip())), answer.stdout)
checks.check("to keep none is refused", run(os.path.join(EXAMPLES, "backup"), named, both, "0", MOO=moo).returncode == 2)
checks.check("a program that isn't there is named", run(os.path.join(EXAMPLES, "backup"), named, both, MOO="nowhere").returncode == 2)
server.kill()
restored = os.path.join(folder, "restored.db")
shutil.copy(copies[1], restored)
server = Server(moo, path=restored)
checks.check("a copy that is put back is served", server.port is not None, server.log())
server.kill()

if shutil.which("systemd-analyze"):
    unit = os.path.join(folder, "moo.service")
    with open(os.path.join(EXAMPLES, "moo.service")) as file:
        text = file.read()
    with open(unit, "w") as file:
        file.write(text.replace("/srv/moo/moo ", "/bin/true ").replace("User=moo", "User=root"))
    answer = run("systemd-analyze", "verify", unit)
    checks.check("systemd takes the unit", answer.returncode == 0 and "moo.service" not in answer.stdout, answer.stdout)
else:
    checks.skip("the unit", "there is no systemd-analyze")

def nginx_words():
    """Writes a whole configuration around the example, with a certificate of its own, and returns the words that test it."""
    key, certificate = (os.path.join(folder, name) for name in ("moo.key", "moo.crt"))
    run("openssl", "req", "-x509", "-newkey", "rsa:2048", "-nodes", "-subj", "/CN=localhost", "-keyout", key, "-out", certificate)
    with open(os.path.join(EXAMPLES, "nginx.conf")) as file:
        text = file.read().replace("/etc/ssl/moo.key", key).replace("/etc/ssl/moo.crt", certificate)
    whole = os.path.join(folder, "nginx.conf")
    with open(whole, "w") as file:
        file.write(f"include /etc/nginx/modules-enabled/*.conf;\npid {folder}/nginx.pid;\nevents {{}}\n{text}")
    return ["-t", "-c", whole]


for tool, words in (("stunnel", lambda: ["-version"]), ("nginx", nginx_words), ("logrotate", lambda: ["-d", os.path.join(EXAMPLES, "logrotate.conf")])):
    if shutil.which(tool):
        answer = run(tool, *words())
        checks.check(f"{tool} takes its file", answer.returncode == 0, answer.stdout)
    else:
        checks.skip(f"{tool}'s file", f"there is no {tool}")
checks.end()
