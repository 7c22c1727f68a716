"""Parts of page.py: what is typed, and what the log shows."""

from checks import entered
from chromium import CONTROL, SHIFT

PASTE = """(() => {
  const d = new DataTransfer();
  d.setData('text/plain', 'say a\\r\\nsay b\\r\\nsay c\\r\\n');
  type.focus();
  type.dispatchEvent(new ClipboardEvent('paste', { clipboardData: d, bubbles: true }));
})()"""

# Whether the line that was found is neither at the top nor at the bottom.
FAR_FROM_EDGES = """(() => {
  const hit = document.querySelector('.hit').getBoundingClientRect(), seen = log.getBoundingClientRect();
  return hit.top > seen.top + 100 && hit.bottom < seen.bottom - 100;
})()"""

LAST_LINK = "[...lines.querySelectorAll('a')].pop()"


def backwards(count):
    """Returns `4 of 5` for `5 of 5`."""
    place, _, of = count.partition(" ")
    return f"{int(place) - 1} {of}"


def they_play_next_to_telnet(check, served, browser):
    page = entered(served, browser, "create Ann secretword")
    telnet = served.telnet("connect guest")
    page.line("say hello & <img src=x onerror=alert(1)> <b>x</b>")
    check("a telnet user hears the browser user", telnet.sees('says, "hello & <img src=x onerror=alert(1)> <b>x</b>"'), telnet.got[-200:])
    telnet.line("say and you")
    page.until("lines.innerText.includes('says, \"and you\"')")
    check("and the other way round", True)
    check("text is never markup", page.js("lines.querySelectorAll('img,b').length") == 0)
    page.line("look", 0)
    page.until("lines.innerText.includes('Green_Guest is here.')")
    check("each sees the other", "Ann" in (telnet.line("look") or telnet.read()))
    page.line("say see https://example.org/a_(b)?c=d#e.", 0)
    page.until("lines.querySelectorAll('a').length === 2")
    check("links are found", page.js(LAST_LINK + ".href") == "https://example.org/a_(b)?c=d#e")
    check("and open elsewhere", "noopener" in page.js(LAST_LINK + ".rel"))
    page.line("say \u201cquoted\u201d \u2014 caf\u00e9\u2026")
    check("a phone's quotes become ASCII", telnet.sees('says, ""quoted" -- cafe..."'), telnet.got[-120:])


def earlier_lines_come_back(check, served, browser):
    page = entered(served, browser, "connect guest")
    for line in ("look", "say one", "say two"):
        page.line(line)
    seen = []
    for key in ("ArrowUp", "ArrowUp", "ArrowDown", "ArrowDown"):
        page.key(key)
        seen.append(page.js("type.value"))
    check("Up and Down walk through earlier lines", seen == ["say two", "say one", "say two", ""], str(seen))
    page.type("lo")
    page.key("ArrowUp")
    check("those that begin as typed", page.js("type.value") == "look")
    page.key("Escape")
    check("Escape clears the line", page.js("type.value") == "")
    telnet = served.telnet("connect guest")
    page.js(PASTE)
    page.type("say a\nsay b\nsay c")
    page.key("Enter")
    check("a paste of several lines goes line by line", all(telnet.sees(f'says, "{letter}"') for letter in "abc"), telnet.got[-200:])


def a_long_line_does_not_end_the_connection(check, served, browser):
    page = entered(served, browser, "connect guest")
    page.js("type.value = 'say ' + 'x'.repeat(200000); submit()")
    page.line("say still here", 0)
    page.until("lines.innerText.includes('You say, \"still here\"')")
    check("a line of 200,000 letters doesn't end the connection", page.js("isIn"))
    took = page.js("(() => { const from = performance.now(); put('said', 'http://x' + '.'.repeat(200000) + 'a'); flush(); return performance.now() - from; })()")
    check("nor does one with a long address delay the page", took < 1000, str(took))
    page.js("put('said', 'a http://x.org/a).). b'); flush()")
    check("an address ends before its stops", page.js(LAST_LINK + ".href") == "http://x.org/a")


def a_long_log_is_read(check, served, browser):
    page = entered(served, browser, "connect guest")
    telnet = served.telnet("connect guest")
    for topic in ("help", "help topics", "help programming", "help writing"):
        page.line(topic)
    page.until("lines.innerText.includes('several MUD clients know')")
    page.js("type.blur(); log.scrollTop = 0")
    page.rest(0.2)
    telnet.line("say while you read")
    page.until("document.getElementById('more').textContent.startsWith('1 new') && !document.getElementById('more').hidden")
    check("scrolled up, the log stays, and reports new lines", page.js("log.scrollTop") == 0)
    page.key("f", CONTROL | SHIFT)
    page.type("a programmer is a player")
    page.rest(0.2)
    place = page.js("log.scrollTop")
    check("the search finds an earlier line", place > 0 and "A programmer is a player" in page.js("document.querySelector('.hit').textContent"))
    check("in the middle of the log", page.js(FAR_FROM_EDGES))
    telnet.line("say while you search")
    page.until("document.getElementById('more').textContent.startsWith('2 new')")
    check("the log stays where the search has led", page.js("log.scrollTop") == place)
    page.js("document.getElementById('sought').value = ''")
    page.type("help")
    first = page.js("document.getElementById('found').firstChild.data")
    page.key("Enter")
    check("Enter leads to an earlier one", backwards(first) == page.js("document.getElementById('found').firstChild.data"), first)
    page.key("Escape")
    check("Escape closes the search", page.js("document.getElementById('find').hidden && document.querySelectorAll('.hit').length === 0 && document.activeElement.id") == "type")
    page.click("#more")
    page.rest(0.2)
    check("the button leads to the end", page.js("log.scrollHeight - log.scrollTop - log.clientHeight < 4"))
    page.js("type.focus()")
    page.key("PageUp")
    page.rest(0.2)
    check("PgUp scrolls while one types", page.js("log.scrollHeight - log.scrollTop - log.clientHeight > 100"))
    page.js("opt.keep = 1000; for (let i = 0; i < 30000; i++) put('said', 'line ' + i)")
    page.until("lines.innerText.includes('line 29999')")
    check("the log keeps as many lines as it may", page.js("lines.childElementCount") == 1000)


def what_comes_unseen_is_counted(check, served, browser):
    page = entered(served, browser, "connect guest")
    telnet = served.telnet("connect guest")
    page.js("Object.defineProperty(document, 'visibilityState', { value: 'hidden', configurable: true }); 0")
    telnet.line("say psst")
    page.until("document.title.startsWith('(1)')")
    check("a line that comes unseen is counted in the title", True)
    page.js("delete document.visibilityState; document.hasFocus = () => true; dispatchEvent(new Event('focus'))")
    check("and no more once it is seen", not page.js("document.title").startswith("("))


def what_comes_as_the_page_is_hidden_is_shown(check, served, browser):
    """A page that is hidden gets no frames: here it gets none at all."""
    page = entered(served, browser, "connect guest")
    page.rest(0.2)
    page.js("""requestAnimationFrame = () => 0; put('said', 'just before');
      Object.defineProperty(document, 'visibilityState', { value: 'hidden', configurable: true }); document.dispatchEvent(new Event('visibilitychange'))""")
    page.until("lines.innerText.includes('just before')", 2)
    telnet = served.telnet("connect guest")
    page.until("document.title.startsWith('(')")
    telnet.line("say psst")
    page.until("lines.innerText.includes('psst')")
    check("what comes just before the page is hidden delays nothing that comes after it", True)


def it_fits_a_phone(check, served, browser):
    page = entered(served, browser, "connect guest", width=390, height=844)
    for topic in ("help", "help programming", "@ways"):
        page.line(topic)
    page.until("lines.innerText.includes('to The Meadow')")
    check("on a phone nothing is wider than the screen", page.js("document.documentElement.scrollWidth <= innerWidth && log.scrollWidth <= log.clientWidth"))
    check("a paragraph of the world is one", page.js("lines.querySelectorAll('.j').length > 2 && document.body.classList.contains('flow')"))
    page.js("put('said', 'This sentence ends here.  The next one goes on to the end of this line, and'); put('said', 'further.'); flush()")
    check("two blanks after a sentence are in one paragraph too", page.js("lines.lastElementChild.previousElementSibling.classList.contains('j')"))
    check("a table that is too wide has no columns", page.js("[...lines.querySelectorAll('.l')].filter(d => /^  @list whistle/.test(d.textContent) && d.classList.contains('narrow')).length") == 1)
    check("buttons are large enough for a thumb", page.js("[...document.querySelectorAll('footer button')].filter(e => e.offsetParent && e.offsetHeight < 36).length") == 0)
    page.js("document.getElementById('options').click(); document.getElementById('o-seek').click()")
    page.until("document.activeElement.id === 'sought'")
    page.type("whistle")
    check("the settings lead to the search", " of " in page.js("document.getElementById('found').textContent"))
    page.key("Escape")
    page.js("panel(true)")
    page.rest(0.2)
    check("the editor covers the log", page.js("document.elementFromPoint(195, 400).id") == "code")
    page.js("panel(false)")
    served.stop()
    page.until("/next try/.test(document.getElementById('said-state').textContent)")
    check("a lost connection is named at the top", page.js("(() => { const r = document.getElementById('count').getBoundingClientRect(); return r.width > 20 && r.right <= document.getElementById('again').getBoundingClientRect().left; })()"))


PARTS = [they_play_next_to_telnet, earlier_lines_come_back, a_long_line_does_not_end_the_connection, a_long_log_is_read, what_comes_unseen_is_counted,
         what_comes_as_the_page_is_hidden_is_shown, it_fits_a_phone]
