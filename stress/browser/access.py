"""Parts of page.py: what those need who don't see the page, or don't use a mouse.

Debian 12 has no package of axe-core. So rules.js has the rules of it that matter here, over the page as the browser has laid it out."""

import json
import pathlib

from checks import entered, opened
from chromium import SHIFT

RULES = (pathlib.Path(__file__).parent / "rules.js").read_text()

SCREENS = [(1280, 800, "dark"), (1280, 800, "light"), (390, 844, "dark"), (390, 844, "light"), (320, 568, "dark")]

# Lines of each kind that the page shows in a colour of its own.
LINES = ["look", "say see https://example.org/", "whisper \"psst\" to me", ";#1", "@who", "x" * 8100]

# Faults that break a rule, as JavaScript that puts them into the page.
PLANTED = {
    "document-title": "document.title = ' '",
    "html-has-lang": "document.documentElement.lang = ''",
    "meta-viewport": "document.querySelector('meta[name=viewport]').content += ', user-scalable=no'",
    "landmark-one-main": "document.body.insertAdjacentHTML('beforeend', '<main></main>')",
    "page-has-heading-one": "document.querySelector('h1').remove()",
    "heading-order": "document.querySelector('main').insertAdjacentHTML('beforeend', '<h4>x</h4>')",
    "skip-link": "document.querySelector('.skip').href = '#nowhere'",
    "region": "document.body.insertAdjacentHTML('beforeend', '<p>x</p>')",
    "duplicate-id": "log.insertAdjacentHTML('beforeend', '<p id=type></p>')",
    "aria-roles": "log.setAttribute('role', 'logg')",
    "aria-required-attr": "log.insertAdjacentHTML('beforeend', '<p role=separator></p><p role=slider></p>')",
    "aria-valid-attr": "log.setAttribute('aria-lable', 'x')",
    "aria-valid-attr-value": "log.setAttribute('aria-labelledby', 'nowhere')",
    "aria-allowed-attr": "log.setAttribute('aria-expanded', 'true')",
    "aria-hidden-focus": "document.querySelector('footer').setAttribute('aria-hidden', 'true')",
    "tabindex": "type.tabIndex = 2",
    "scrollable-region-focusable": "log.removeAttribute('tabindex'); lines.textContent = '\\n'.repeat(999); lines.style.whiteSpace = 'pre'",
    "nested-interactive": "document.getElementById('send').innerHTML = '<a href=x>x</a>'",
    "target-size": "document.getElementById('send').style.cssText = 'height:9px;min-height:0;font-size:4px;padding:0'",
    "list": "log.insertAdjacentHTML('beforeend', '<ul><p>x</p></ul>')",
    "listitem": "log.insertAdjacentHTML('beforeend', '<li>x</li>')",
    "definition-list": "document.querySelector('dl').insertAdjacentHTML('beforeend', '<p>x</p>')",
    "dlitem": "log.insertAdjacentHTML('beforeend', '<dd>x</dd>')",
    "color-contrast": "document.documentElement.style.setProperty('--text', '#666')",
    "label": "document.querySelector('label[for=type]').remove(); type.removeAttribute('placeholder')",
    "button-name": "document.getElementById('send').textContent = ''",
    "link-name": "log.insertAdjacentHTML('beforeend', '<a href=x></a>')",
    "aria-name": "log.removeAttribute('aria-label')",
    "aria-dialog-name": "document.getElementById('set').removeAttribute('aria-labelledby'); document.getElementById('options').click()",
    "non-text-contrast": "document.documentElement.style.setProperty('--edge', '#333')",
}

# What has the focus: its identifier or its text, whether a ring shows it, and whether it is on the screen.
FOCUSED = """(() => {
  const e = document.activeElement, r = e.getBoundingClientRect(), s = getComputedStyle(e);
  return [e.id || e.textContent.slice(0, 30), e.matches(':focus-visible') && s.outlineStyle === 'solid' && parseFloat(s.outlineWidth) >= 2, r.width > 1 && r.top >= 0 && r.bottom <= innerHeight];
})()"""

# What Tab reaches, by identifier or text.
ORDER = ["To the line of input", "edit", "seek", "smaller", "larger", "options", "log", "type", "send"]

# Roles of the browser's accessibility tree that must have a name, with the rule.
NAMED = {"button": "button-name", "link": "link-name", "textbox": "label", "combobox": "label", "checkbox": "label", "log": "aria-name",
         "dialog": "aria-dialog-name", "group": "aria-name", "complementary": "aria-name", "heading": "empty-heading"}


def broken_rules(page):
    """Returns what breaks a rule: in the page, and in the browser's tree what has no name."""
    nodes = page.do("Accessibility.getFullAXTree")["nodes"]
    seen = [(node["role"]["value"], node.get("name", {}).get("value", "").strip()) for node in nodes if not node["ignored"]]
    return page.js(RULES) + [f"{NAMED[role]}: {role}" for role, name in seen if role in NAMED and not name]


def the_rules_are_kept(check, served, browser):
    for width, height, scheme in SCREENS:
        page = opened(served, browser, width=width, height=height, scheme=scheme)
        states = [("login", "0"), ("in", None), ("editor", "panel(true)"), ("search", "panel(false); finder(true); document.getElementById('sought').value = 'a'; search()"),
                  ("settings", "finder(false); document.getElementById('options').click()"),
                  ("lost", "document.getElementById('set').close(); opt.back = false; ws.close()")]
        for state, code in states:
            if code is None:
                page.js("type.focus()")
                for line in ("connect guest", *LINES):
                    page.line(line)
                code = "put('bad', 'x'); put('good', 'x'); put('', 'x')"
            page.js(code)
            page.rest(0.2)
            found = broken_rules(page) + page.js("document.documentElement.scrollWidth > innerWidth ? ['reflow'] : []")
            check(f"rules of accessibility: {state}, {width} wide, {scheme}", not found, "; ".join(found))


def the_rules_find_what_is_planted(check, served, browser):
    missed = []
    for rule, code in PLANTED.items():
        page = opened(served, browser)
        page.js(code)
        if not any(found.startswith(rule + ":") for found in broken_rules(page)):
            missed.append(rule)
        page.faults.clear()  # Chromium itself reports some of them.
    check(f"each of {len(PLANTED)} planted faults is found", not missed, str(missed))


def the_keyboard_is_enough(check, served, browser):
    page = entered(served, browser, "connect guest")
    page.js("document.querySelector('.skip').focus()")
    seen = [page.js(FOCUSED)]
    for _ in ORDER[1:]:
        page.key("Tab")
        seen.append(page.js(FOCUSED))
    check("Tab goes from the top to the line of input", [name for name, _, _ in seen] == ORDER, str(seen))
    check("a ring shows where the focus is", all(is_ringed for _, is_ringed, _ in seen), str(seen))
    check("on the screen", all(is_on for _, _, is_on in seen), str(seen))
    for _ in ORDER[1:]:
        page.key("Tab", SHIFT)
    check("Shift+Tab goes back", page.js("document.activeElement.className") == "sr skip")
    page.key("Enter")
    page.rest(0.1)
    check("the first link leads to the line of input", page.js("document.activeElement.id") == "type")
    page.js("document.getElementById('set').addEventListener('close', () => window.isShut = true); 0")
    page.key("F1")
    page.until("document.getElementById('set').open")
    page.key("Tab")
    check("F1 opens the settings, which keep the focus", page.js("document.getElementById('set').contains(document.activeElement)"))
    page.key("Escape")
    page.until("window.isShut && document.activeElement.id === 'type'")
    check("Escape closes them", not page.js("document.getElementById('set').open"))
    page.js("document.getElementById('edit').focus()")
    page.key("Enter")
    check("the editor takes the focus", page.js("document.activeElement.id") == "verb" and page.js("document.getElementById('edit').getAttribute('aria-expanded')") == "true")
    page.key("Escape")
    check("Escape closes it", page.js("document.activeElement.id") == "type" and page.js("document.getElementById('panel').hidden"))


def the_log_is_announced(check, served, browser):
    page = entered(served, browser, "connect guest")
    check("the log is a live region", page.js("[log.getAttribute('role'), log.getAttribute('aria-live'), log.getAttribute('aria-relevant')].join()") == "log,polite,additions")
    page.line("look")
    check("what one types is not announced", page.js("[...lines.querySelectorAll('.own')].every(e => e.getAttribute('aria-live') === 'off')"))
    served.stop()
    page.until("/next try/.test(document.getElementById('said-state').textContent)")
    check("the state is, but not each second of a wait", page.js("document.getElementById('state').getAttribute('role') + document.getElementById('count').getAttribute('aria-hidden')") == "statustrue")
    check("the dot blinks", page.js("getComputedStyle(document.getElementById('dot')).animationName") == "b")
    page.prefer(reduced_motion="reduce")
    moving = page.js("document.getAnimations().length + [...document.querySelectorAll('*')].filter(e => getComputedStyle(e).transitionDuration !== '0s' || getComputedStyle(e).scrollBehavior !== 'auto').length")
    check("nothing moves for who prefers that", moving == 0, json.dumps(moving))
    check("text can be made twice as large", page.js("(() => { for (let i = 0; i < 15; i++) resize(1); return getComputedStyle(log).fontSize; })()") == "30px")


PARTS = [the_rules_are_kept, the_rules_find_what_is_planted, the_keyboard_is_enough, the_log_is_announced]
