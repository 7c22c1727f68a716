"""Parts of page.py: the editor of verbs and of texts."""

from checks import entered
from chromium import ALT, CONTROL

CODE = "document.getElementById('code').value"
SAID = "document.getElementById('said')"


def fill(page, name, code):
    """Puts a name and lines into the editor, which is open."""
    page.js(f"document.getElementById('verb').value = {name!r}; {CODE} = {code!r}")


def a_verb_is_edited(check, served, browser):
    page = entered(served, browser, "connect", "wizard", served.password())
    page.line("@create $thing named brass lamp,lamp", 0.3)
    page.line("@verb lamp:rub this none none", 0.3)
    page.key("e", ALT)
    fill(page, "lamp:rub", 'if (1)\n  player:tell("It glows.");\nendif')
    page.click("#save")
    page.until(SAID + ".className === 'good'")
    check("the editor programs a verb", True)
    page.js(f"{CODE} = ''; editing = ''")
    page.click("#fetch")
    page.until(CODE + ".includes('It glows.')")
    check("and fetches it", "  player:tell" in page.js(CODE))
    page.js(CODE + " = 'player:tell(1);\\nfoo('")
    page.js("document.getElementById('code').focus()")
    page.key("s", CONTROL)
    page.until(SAID + ".className === 'bad'")
    check("Ctrl+S saves, a fault is shown, and its line chosen", page.js("document.getElementById('code').selectionStart") == 16, page.js(SAID + ".textContent"))
    page.js(CODE + " = 'player:tell(\"It glows.\");'; for (let i = 0; i < 3; i++) document.getElementById('save').click()")
    page.until(SAID + ".className === 'good'")
    page.rest(0.3)
    check("Save that is pressed three times saves once", page.js(SAID + ".textContent").count("Verb programmed.") == 1 and "It glows" not in page.text())
    fill(page, "nothing:x", "say leaked")
    page.click("#save")
    page.until(SAID + ".textContent.includes('No such verb')")
    page.rest(0.3)
    check("a refused program's lines are not sent as commands", "leaked" not in page.text())
    page.js("document.getElementById('code').focus()")
    page.key("Escape")
    check("Escape closes the editor", page.js("document.getElementById('panel').hidden && document.activeElement.id") == "type")
    page.line("rub lamp", 0)
    page.until("lines.innerText.includes('It glows.')")
    check("the verb runs", True)


def a_long_verb_is_whole_or_not_edited(check, served, browser):
    page = entered(served, browser, "connect", "wizard", served.password())
    page.line("@create $thing named brass lamp,lamp", 0.3)
    page.line("@verb lamp:rub this none none", 0.3)
    page.key("e", ALT)
    for count, is_whole in ((1000, True), (3000, False)):
        page.js(f"document.getElementById('verb').value = 'lamp:rub'; {CODE} = editing = Array.from({{ length: {count} }}, (_, i) => '\"line ' + i + '\";').join('\\n'); 0")
        page.click("#save")
        page.until(SAID + ".className === 'good'", 60)
        page.js(CODE + " = editing = ''")
        page.click("#fetch")
        page.until(SAID + ".textContent !== 'reading ..'", 60)
        check(f"a verb of {count} lines " + ("is fetched" if is_whole else "isn't, since it can't be listed whole"),
              page.js(f"[{CODE}.split('\\n').length, {SAID}.textContent.includes('not whole')]") == ([count, False] if is_whole else [1, True]), page.js(SAID + ".textContent")[-200:])


def a_text_is_edited(check, served, browser):
    page = entered(served, browser, "connect", "wizard", served.password())
    for line in ("@create $note named list,list", "@local on", "@edit list"):
        page.line(line, 0.3)
    page.until("!document.getElementById('panel').hidden")
    check("`@edit` opens the editor with a note", page.js("document.getElementById('verb').value") == "list.text" and page.js("document.activeElement.id") == "code")
    page.type("milk\n.\n  eggs")
    page.click("#save")
    page.line("", 0.3)
    page.js("panel(false)")
    page.line("read list", 0)
    page.until("lines.innerText.includes('eggs')")
    check("Save writes its lines", all(line in page.text() for line in ("milk", "  eggs")), page.text()[-200:])
    page.line(';notify(player, "#$# edit name: Note upload: @describe lamp as"); notify(player, "one"); notify(player, "."); return 0', 0)
    page.until("!document.getElementById('panel').hidden")
    check("`#$# edit` opens the editor", page.js(CODE) == "one")
    page.js(CODE + " = 'two'; window.confirm = () => false; type.focus()")
    page.line(';notify(player, "#$# edit name: Note upload: @describe lamp as"); notify(player, "three"); notify(player, "."); return 0', 0)
    page.until(SAID + ".textContent.includes('was not opened')")
    check("and asks before it drops what is written there", page.js(CODE) == "two")


def what_others_chose_is_not_typed(check, served, browser):
    page = entered(served, browser, "connect", "wizard", served.password())
    for line in ("@create $note named list,list", "@local on", "@edit list"):
        page.line(line, 0.3)
    page.until("!document.getElementById('panel').hidden")
    page.type("..milk\n...\nsay leaked")
    page.click("#save")
    page.until("lines.innerText.includes('list.text has')")
    page.js("panel(false)")
    page.line("read list", 0)
    page.until("lines.innerText.includes('..milk')")
    check("a line that begins with dots keeps them", "\n...\n" in page.text(), page.text()[-200:])
    page.line("@edit list", 0)
    page.until("!document.getElementById('panel').hidden")
    page.js("panel(false)")
    page.line("@recycle list", 0.3)
    page.js("panel(true)")
    page.click("#save")
    page.until("lines.innerText.includes('They are dropped.')")
    check("the lines of a text that is gone are no commands", "You say" not in page.text(), page.text()[-200:])
    page.js("panel(false)")
    page.line(';notify(player, "#$# edit name: x upload: say upload: @write #0.x"); notify(player, "."); return 0', 0)
    page.until("!document.getElementById('panel').hidden")
    check("a name doesn't say what is sent", page.js("upload") == "@write #0.x", page.js("upload"))
    page.js("panel(false)")
    page.line(';notify(player, "#$# edit name: x:y upload: .program nothing:y"); notify(player, "say leaked"); notify(player, "."); return 0', 0)
    page.until("!document.getElementById('panel').hidden")
    page.click("#save")
    page.until(SAID + ".textContent.includes('No such verb')")
    page.rest(0.3)
    check("nor are the lines of a program that is refused", "You say" not in page.text(), page.text()[-200:])


PARTS = [a_verb_is_edited, a_long_verb_is_whole_or_not_edited, a_text_is_edited, what_others_chose_is_not_typed]
