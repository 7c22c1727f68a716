#!/usr/bin/env python3
"""Plays on the page of `moo serve --web` with a headless Chromium or Firefox, next to telnet clients.

    stress/browser/page.py [--changed] [--firefox] [PROGRAM]

PROGRAM is the one that ./moo would run, if none is given. With `--changed` the page is web/index.html as it is now, and not the one that is built
into the program. It needs Debian's package chromium-headless-shell, or chromium. With `--firefox` it needs firefox-esr, and leaves out what access.py
checks. Without the browser it prints `skipped` and ends with status 0. Each line of output is one check, and the status is 1 if one failed."""

import subprocess
import sys

import access
import coming
import editing
import firefox
import playing
from checks import Checks
from chromium import SHELL, Browser
from served import TOP, Served

PARTS = [*coming.PARTS, *playing.PARTS, *editing.PARTS]


def main():
    words = [word for word in sys.argv[1:] if not word.startswith("--")]
    is_firefox = "--firefox" in sys.argv[1:]
    if (firefox.PROGRAM if is_firefox else SHELL) is None:
        print("skipped: there is no " + ("Firefox" if is_firefox else "Chromium"))
        return
    kind, parts = (firefox.Firefox, PARTS) if is_firefox else (Browser, [*PARTS, *access.PARTS])
    if not words:
        words = subprocess.run([TOP / "moo", "--path"], stdout=subprocess.PIPE, text=True, check=True).stdout.split()
    checks = Checks()
    for part in parts:
        with Served(words[0], "--changed" in sys.argv[1:]) as served, kind() as browser:
            checks.play(part, served, browser)
    print(f"{checks.failed} failed" if checks.failed else "all passed")
    sys.exit(bool(checks.failed))


if __name__ == "__main__":
    main()
