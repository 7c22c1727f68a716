// Rules of accessibility over the page as it is now, by the names that axe-core gives them. The value is a list of what breaks them.
(() => {
  'use strict';
  const found = [];
  const all = (selector, within = document) => [...within.querySelectorAll(selector)];
  const says = (rule, element, more = '') => found.push(`${rule}: ${name(element)} ${more}`.trim());
  const isSeen = e => e.checkVisibility({ visibilityProperty: true, opacityProperty: true });
  const isClipped = e => !!e.closest('.sr');

  function name(e) {
    return e ? e.tagName.toLowerCase() + (e.id ? '#' + e.id : '') + (e.className ? '.' + e.className : '') : 'document';
  }

  // ---- the document
  function document_rules() {
    if (!document.title.trim()) says('document-title');
    if (!/^[a-z]{2,3}(-[A-Za-z0-9]+)*$/.test(document.documentElement.lang)) says('html-has-lang');
    const viewport = document.querySelector('meta[name=viewport]')?.content ?? '';
    if (/user-scalable\s*=\s*(no|0)|maximum-scale\s*=\s*[01](\.|,|$)/.test(viewport)) says('meta-viewport');
    if (all('main').length !== 1) says('landmark-one-main');
    if (all('h1').length !== 1) says('page-has-heading-one');
    const levels = all('h1,h2,h3,h4,h5,h6').filter(isSeen).map(e => +e.tagName[1]);
    if (levels.some((level, at) => level > (levels[at - 1] ?? 0) + 1)) says('heading-order');
    const skip = document.querySelector('a[href^="#"]');
    if (!skip || !document.querySelector(skip.getAttribute('href'))) says('skip-link', skip);
    const ids = all('[id]').map(e => e.id);
    for (const id of ids.filter((id, at) => ids.indexOf(id) !== at)) found.push('duplicate-id: ' + id);
  }

  const LANDMARKS = 'main,header,footer,aside,nav,dialog,[role=main],[role=region],form[aria-label],section[aria-label]';
  function region() {
    const walk = document.createTreeWalker(document.body, NodeFilter.SHOW_TEXT);
    while (walk.nextNode()) {
      const e = walk.currentNode.parentElement;
      if (walk.currentNode.data.trim() && isSeen(e) && !e.closest(LANDMARKS) && !e.matches('script,.skip')) says('region', e);
    }
  }

  // ---- ARIA
  const GLOBAL = ['atomic', 'busy', 'controls', 'current', 'describedby', 'details', 'flowto', 'hidden', 'keyshortcuts', 'label', 'labelledby', 'live', 'owns', 'relevant', 'roledescription'];
  const OWN = { button: ['expanded', 'haspopup', 'pressed', 'disabled'], textbox: ['invalid', 'required', 'readonly', 'multiline', 'placeholder', 'activedescendant', 'autocomplete', 'haspopup', 'errormessage', 'disabled'], dialog: ['modal'], link: ['expanded', 'haspopup', 'disabled'] };
  const VALUES = { 'aria-live': /^(off|polite|assertive)$/, 'aria-hidden': /^(true|false)$/, 'aria-expanded': /^(true|false)$/, 'aria-haspopup': /^(true|false|menu|listbox|tree|grid|dialog)$/, 'aria-relevant': /^(additions|removals|text|all)( (additions|removals|text))*$/ };
  const ROLES = ['log', 'search', 'status', 'alert', 'group', 'region', 'dialog', 'button', 'link', 'note', 'separator'];
  const REQUIRED = { checkbox: ['checked'], combobox: ['expanded', 'controls'], slider: ['valuenow'], scrollbar: ['valuenow', 'controls'], heading: ['level'], option: [], separator: [] };
  function role(e) {
    const tags = { BUTTON: 'button', A: 'link', INPUT: 'textbox', TEXTAREA: 'textbox', DIALOG: 'dialog' };
    return e.getAttribute('role') ?? tags[e.tagName] ?? '';
  }
  function aria() {
    for (const e of all('*')) {
      const given = e.getAttribute('role');
      if (given !== null && !ROLES.includes(given)) says('aria-roles', e, given);
      for (const need of REQUIRED[given] ?? []) if (!e.hasAttribute('aria-' + need)) says('aria-required-attr', e, need);
      for (const a of e.attributes) if (a.name.startsWith('aria-')) attribute(e, a.name, a.value);
      if (e.getAttribute('aria-hidden') === 'true' && (e.tabIndex >= 0 || all('a,button,input,select,textarea,[tabindex]', e).length)) says('aria-hidden-focus', e);
    }
  }
  function attribute(e, key, value) {
    const short = key.slice(5);
    const known = GLOBAL.includes(short) || Object.values(OWN).some(keys => keys.includes(short));
    if (!known) says('aria-valid-attr', e, key);
    else if (!GLOBAL.includes(short) && !(OWN[role(e)] ?? []).includes(short)) says('aria-allowed-attr', e, key);
    if (VALUES[key] && !VALUES[key].test(value)) says('aria-valid-attr-value', e, key);
    if (/^(controls|describedby|labelledby|owns|details)$/.test(short) && value.split(/\s+/).some(id => !document.getElementById(id))) says('aria-valid-attr-value', e, key);
  }

  // ---- keyboard and structure
  const CONTROL = 'a[href],button,input,select,textarea,[tabindex]:not([tabindex="-1"])';
  function keyboard() {
    for (const e of all('[tabindex]')) if (e.tabIndex > 0) says('tabindex', e);
    for (const e of all('*').filter(isSeen)) {
      const style = getComputedStyle(e);
      const scrolls = /(auto|scroll)/.test(style.overflowY + style.overflowX) && (e.scrollHeight > e.clientHeight + 1 || e.scrollWidth > e.clientWidth + 1);
      if (scrolls && !e.matches(CONTROL) && !e.querySelector(CONTROL) && !isClipped(e)) says('scrollable-region-focusable', e);
    }
    for (const e of all('button,a[href]')) if (e.querySelector(CONTROL)) says('nested-interactive', e);
    for (const e of all('button,input,select,textarea').filter(e => isSeen(e) && !isClipped(e))) {
      const box = e.getBoundingClientRect();
      if ((box.width < 24 || box.height < 24) && !e.closest('label')) says('target-size', e, `${box.width}x${box.height}`);
    }
  }
  function lists() {
    for (const e of all('ul,ol')) if ([...e.children].some(c => !/^(LI|SCRIPT|TEMPLATE)$/.test(c.tagName))) says('list', e);
    for (const e of all('li')) if (!e.parentElement.matches('ul,ol,menu')) says('listitem', e);
    for (const e of all('dl')) if ([...e.children].some(c => !/^(DT|DD|DIV)$/.test(c.tagName))) says('definition-list', e);
    for (const e of all('dt,dd')) if (!e.parentElement.closest('dl')) says('dlitem', e);
  }

  // ---- contrast
  function colour(text) {
    const [r, g, b, a = 1] = text.match(/[\d.]+/g).map(Number);
    return [r, g, b, a];
  }
  function over(front, back) {
    return [0, 1, 2].map(i => front[i] * front[3] + back[i] * (1 - front[3])).concat(1);
  }
  function ground(e) {
    if (!e) return [255, 255, 255, 1];
    const own = colour(getComputedStyle(e).backgroundColor);
    return own[3] === 1 ? own : over(own, ground(e.parentElement));
  }
  function light([r, g, b]) {
    const [x, y, z] = [r, g, b].map(c => c / 255).map(c => c <= .04045 ? c / 12.92 : ((c + .055) / 1.055) ** 2.4);
    return .2126 * x + .7152 * y + .0722 * z;
  }
  function ratio(a, b) {
    const [low, high] = [light(a), light(b)].sort((x, y) => x - y);
    return (high + .05) / (low + .05);
  }
  function contrast(rule, e, front, back, need) {
    const is = ratio(over(front, back), back);
    if (is < need) says(rule, e, is.toFixed(2));
  }
  function text_contrast(e) {
    for (const part of [undefined, '::before', '::after', '::placeholder']) {
      const style = getComputedStyle(e, part);
      const shows = part === undefined ? [...e.childNodes].some(n => n.nodeType === 3 && n.data.trim()) || e.value
        : part === '::placeholder' ? e.placeholder && !e.value : !/^(none|normal)$/.test(style.content);
      const large = parseFloat(style.fontSize) >= 24 || (parseFloat(style.fontSize) >= 18.66 && +style.fontWeight >= 700);
      if (shows) contrast('color-contrast', e, colour(style.color), ground(e), large ? 3 : 4.5);
    }
  }
  function contrasts() {
    const open = document.querySelector('dialog[open]') ?? document.body;
    for (const e of all('*', open).filter(e => isSeen(e) && !isClipped(e) && !e.disabled)) {
      text_contrast(e);
      // The edge of a control, or its ground, has to differ from what is round it.
      if (!e.matches('button,input,select,textarea')) continue;
      const edge = colour(getComputedStyle(e).borderTopColor), round = ground(e.parentElement);
      if (ratio(ground(e), round) < 3) contrast('non-text-contrast', e, edge, round, 3);
    }
  }

  for (const rule of [document_rules, region, aria, keyboard, lists, contrasts]) rule();
  return [...new Set(found)];
})()
