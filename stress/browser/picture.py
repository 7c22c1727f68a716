#!/usr/bin/env python3
"""Makes the picture of the page for the README: two players at The Landing, one of them by telnet.

    stress/browser/picture.py PROGRAM FILE     docs/manual/page.png was made so, by the page in web

It needs Debian's chromium-headless-shell and pngquant."""

import subprocess
import sys

from checks import entered
from chromium import Browser
from served import Served

WIDTH, HEIGHT = 760, 520


def main():
    if len(sys.argv) != 3:
        sys.exit(__doc__)
    with Served(sys.argv[1], is_changed=True) as served, Browser() as browser:
        telnet = served.telnet("create Bob tea+cake")
        page = entered(served, browser, "create Ann open-sesame", width=WIDTH, height=HEIGHT)
        page.rest(0.5)
        page.js("document.getElementById('clear').click(); opt.size = 14; applySettings()")
        page.line("look", 0.5)
        telnet.line("say Good evening, Ann. Have you rung the bell?")
        page.rest(0.5)
        page.line("ring bell", 0.5)
        page.line("say I have. Is the ferry coming?", 0.5)
        page.size(WIDTH, HEIGHT, scale=2)
        page.rest(0.5)
        page.shot(sys.argv[2])
    subprocess.run(["pngquant", "--force", "--speed", "1", "--quality", "70-95", "--output", sys.argv[2], "64", sys.argv[2]], check=True)


if __name__ == "__main__":
    main()
