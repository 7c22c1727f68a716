"""Parts of page.py: coming in, leaving, and coming back."""

from checks import IS_UP, entered, opened

FOCUS = "document.activeElement.id"

TOLD = "document.getElementById('told').textContent"

# Keeps what the page sends in `sent`, and lets ten minutes pass on its clock.
ASLEEP = """(() => {
  const now = Date.now, send = ws.send.bind(ws);
  window.sent = [];
  ws.send = text => { sent.push(text); send(text); };
  Date.now = () => now() + 600000;
})()"""


def a_newcomer_comes_in_by_the_form(check, served, browser):
    page = opened(served, browser)
    check("the page connects and shows the login screen", "connect guest" in page.text())
    check("the world's name is the title", page.js("document.title") == "The Ferry at Gehlavi")
    check("the line of input has the focus", page.js(FOCUS) == "type")
    page.click("#who")
    page.type("Ann")
    page.key("Tab")
    page.type("secretword")
    page.click("#sign [value=create]")
    page.until("isIn")
    page.until("lines.innerText.includes('Welcome, Ann!')")
    text = page.text()
    check("a player is created by the form", "*** Created ***" in text, text[-300:])
    check("the password is not shown in the log", "secretword" not in text and "create Ann \u2022" in text, text[-300:])
    kept = page.js("JSON.stringify(past) + JSON.stringify(sessionStorage) + JSON.stringify(localStorage) + document.getElementById('pass').value")
    check("nor remembered", "secretword" not in kept, kept)
    check("the form is gone, and the line of input has the focus", page.js("document.getElementById('sign').hidden") and page.js(FOCUS) == "type")


def a_wrong_password_is_typed_again(check, served, browser):
    page = opened(served, browser)
    page.click("#who")
    page.type("wizard")
    page.key("Tab")
    page.type("not-the-password")
    page.key("Enter")
    page.until("lines.innerText.includes('the password is another one')")
    check("after a wrong password the field for it has the focus", page.js(FOCUS) == "pass" and page.js("document.getElementById('pass').value") == "")
    page.type(served.password())
    page.key("Enter")
    page.until("isIn")
    check("the wizard comes in with the password of the log", page.js("document.getElementById('sign').hidden") and page.js(FOCUS) == "type")
    taking = entered(served, browser, "connect", "wizard", served.password())
    taking.until("lines.innerText.includes('Redirecting old connection')")
    check("a second page takes over", True)
    page.until("lines.innerText.includes('The connection has ended.')")
    page.rest(3)
    check("and the first does not take it back", not page.js(IS_UP) and taking.js(IS_UP))


def no_password_is_shown_or_changed(check, served, browser):
    page = opened(served, browser)
    page.click("#who")
    page.type("Cyril")
    page.key("Tab")
    page.type("\u043f\u0430\u0440\u043e\u043b\u044c")
    page.click("#sign [value=create]")
    page.rest(0.3)
    check("a new password whose letters would be replaced isn't sent", "create Cyril" not in page.text() and "plain ASCII" in page.js(TOLD) and page.js(FOCUS) == "pass")
    page.js("type.focus()")
    page.line("login wizard secretword")
    page.line("connect wizard " + served.password(), 0)
    page.until("isIn")
    for line in ("@make-player Bob secretword", "@pasword secretword other", "password secretword", "@pass secretword", "@password caf\u00e9-secretword"):
        page.line(line)
    check("nor is one that is typed", "plain ASCII" in page.js(TOLD) and page.js("type.value") == "@password caf\u00e9-secretword")
    page.until("lines.innerText.includes('Bob (#')")
    kept = page.text() + page.js("JSON.stringify(past) + JSON.stringify(sessionStorage)")
    check("one that a wizard gives somebody isn't shown", "secretword" not in kept, kept[-300:])


def one_who_quits_stays_away(check, served, browser):
    page = entered(served, browser, "connect guest")
    page.line("@quit")
    page.until("document.getElementById('said-state').textContent === 'not connected'")
    page.rest(3)
    check("after @quit the page does not come back by itself", not page.js(IS_UP))
    check("its button has the focus", page.js(FOCUS) == "again")
    page.key("Enter")
    page.until(IS_UP)
    check("by which it comes back", True)


def a_lost_connection_is_tried_again(check, served, browser):
    page = entered(served, browser, "connect guest")
    served.stop()
    page.until("/next try/.test(document.getElementById('said-state').textContent)")
    page.line("say lost")
    check("without a connection nothing is sent, and the line stays", page.js("type.value") == "say lost" and "nothing was sent" in page.js("document.getElementById('told').textContent"))
    page.rest(1.5)
    served.start()
    page.until(IS_UP, 40)
    page.until("!document.getElementById('sign').hidden")
    page.until("lines.innerText.includes('Connected again.')")
    check("the page comes back when the server does", True)
    check("and no longer says that nothing was sent", page.js("document.getElementById('told').textContent") == "")


def one_who_wakes_asks_whether_the_world_is_there(check, served, browser):
    page = entered(served, browser, "connect guest")
    page.js(ASLEEP)
    page.until("sent.length")
    check("after a sleep the page sends an empty message", page.js("sent.join('|')") == "")
    page.line("look", 0)
    page.until("lines.innerText.split('The Landing').length === 3")
    check("which is nothing to the world", page.js("sent.length") == 2 and "I don't understand" not in page.text())
    page.js("dispatchEvent(new Event('online'))")
    check("it sends one when the network is back", page.js("sent.length") == 3)


PARTS = [a_newcomer_comes_in_by_the_form, a_wrong_password_is_typed_again, no_password_is_shown_or_changed, one_who_quits_stays_away,
         a_lost_connection_is_tried_again, one_who_wakes_asks_whether_the_world_is_there]
