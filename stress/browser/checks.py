"""What the parts of page.py share: checks that are printed, and pages on which somebody is logged in."""

from chromium import Page

IS_UP = "document.getElementById('dot').className === 'up'"

# What a page reports while its server is down.
EXPECTED = ("ERR_CONNECTION_REFUSED", "WebSocket connection to", "establish a connection to the server at ws:")


class Checks:
    """Counts the checks that failed."""

    def __init__(self):
        self.failed = 0

    def __call__(self, name, is_met, more=""):
        """Prints whether a check is met."""
        self.failed += not is_met
        print(("ok   " if is_met else "FAIL ") + name + (f"   [{more}]" if more and not is_met else ""), flush=True)

    def play(self, part, served, browser):
        """Plays a part, and then looks whether a page has reported a fault."""
        try:
            part(self, served, browser)
        except AssertionError as fault:
            self(part.__name__, False, str(fault))
        faults = [fault for page in browser.pages.values() for fault in page.faults if not any(word in fault for word in EXPECTED)]
        self(f"no script fault, and no refused resource ({part.__name__})", not faults, str(faults))


def opened(served, browser, width=1280, height=800, scheme="dark") -> Page:
    """Returns a page on which nobody is logged in. One that is as narrow as a phone is a phone's."""
    page = browser.page()
    page.size(width, height, mobile=width < 500)
    page.prefer(color_scheme=scheme)
    page.go(served.origin + "/")
    page.until(IS_UP)
    page.until("lines.innerText.includes('The Ferry at Gehlavi')")
    return page


def entered(served, browser, *words, **screen) -> Page:
    """Returns a page on which somebody has logged in by the line of input."""
    page = opened(served, browser, **screen)
    page.js("type.focus()")
    page.line(" ".join(words), 0)
    page.until("isIn")
    page.until("document.getElementById('sign').hidden")
    return page
