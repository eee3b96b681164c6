"""What a page shows that cannot be read, heard, pressed or found by keys, as scripts that name what is wrong."""

import time

from lib.browser import Keys

SCREENS = ((1280, 800, False), (1024, 768, False), (1080, 810, False), (900, 700, False), (1024, 600, False),
           (768, 1024, True), (360, 740, True))
# A phone on its side.
SIDEWAYS = ((640, 360, True), (740, 360, True), (844, 390, True), (568, 320, True))
LIGHT = '''const light = (text) => { const [r, g, b] = text.match(/[\\d.]+/g).map((n) => { const c = n / 255;
    return c <= 0.03928 ? c / 12.92 : ((c + 0.055) / 1.055) ** 2.4; }); return 0.2126 * r + 0.7152 * g + 0.0722 * b; };
  const ratio = (a, b) => { const [x, y] = [light(a), light(b)].sort((one, other) => one - other);
    return (y + 0.05) / (x + 0.05); };'''
# Texts whose contrast with what is behind them is below what WCAG 2.1 asks for (1.4.3), disabled ones left out.
PALE = LIGHT + '''const pale = [];
  for (const e of document.querySelectorAll('.top *, .banners *, main *, dialog[open] *')) {
    const own = [...e.childNodes].some((n) => n.nodeType === 3 && n.data.trim());
    if (!own || !e.getClientRects().length || e.closest('.board, .unseen, :disabled')) continue;
    let back = e;
    while (back && /rgba\\(.*, 0\\)/.test(getComputedStyle(back).backgroundColor)) back = back.parentElement;
    const style = getComputedStyle(e), size = parseFloat(style.fontSize);
    const found = ratio(style.color, getComputedStyle(back || document.body).backgroundColor);
    if (found < (size >= 24 || size >= 18.6 && style.fontWeight >= 700 ? 3 : 4.5))
      pale.push(`${e.id || e.className || e.tagName} ${found.toFixed(1)}`);
  }
  return [...new Set(pale)];'''
# The same of the letters and numbers at the board's edges, on squares of each kind.
COORDINATES = LIGHT + '''const found = [];
  for (const e of document.querySelectorAll('#board .file-letter, #board .rank-number')) {
    const square = e.parentElement;
    for (const kind of ['', 'last', 'held', 'planned']) {
      if (kind) square.classList.add(kind);
      const seen = ratio(getComputedStyle(e).color, getComputedStyle(square).backgroundColor);
      if (kind) square.classList.remove(kind);
      if (seen < 4.5) found.push(`${e.textContent} ${kind} ${seen.toFixed(1)}`);
    } }
  return [...new Set(found)];'''
# What a screen reader would call nothing.
NAMELESS = '''const named = (e) => e.getAttribute('aria-label') || e.getAttribute('aria-labelledby')
    || e.textContent.trim() || e.querySelector('legend')
    || e.labels && [...e.labels].some((label) => label.textContent.trim());
  return [...document.querySelectorAll('button, a[href], input, select, summary, [role], dialog, fieldset, section')]
    .filter((e) => e.getClientRects().length && !e.matches('[role=status], [role=row]') && !named(e))
    .map((e) => e.outerHTML.slice(0, 90));'''
# What has the keys and does not show it.
UNSHOWN = '''const e = document.activeElement, style = getComputedStyle(e), label = e.closest('label');
  const shows = (one) => one && getComputedStyle(one).outlineStyle !== 'none'
    && parseFloat(getComputedStyle(one).outlineWidth) >= 2;
  const inside = getComputedStyle(e, '::before').boxShadow, isHeading = /^(H\\d|MAIN|BODY)$/.test(e.tagName);
  return shows(e) || shows(label) || inside && inside !== 'none' || isHeading ? '' : e.outerHTML.slice(0, 90);'''
# What assistive software stumbles over: a picture without a text, an element that is named and is not there, a thing to
# press within another, a list that has more than its items, an order of the keys of its own, a view without one first
# heading.
STUMBLES = '''const wrong = [], press = 'button, a[href], summary, [role=button]';
  const tell = (e, why) => wrong.push(`${why}: ${e.outerHTML.slice(0, 80)}`);
  for (const e of document.querySelectorAll('img:not([alt])')) tell(e, 'no text');
  for (const name of ['aria-labelledby', 'aria-describedby', 'aria-controls', 'for'])
    for (const e of document.querySelectorAll(`[${name}]`))
      if (e.getAttribute(name).split(' ').some((id) => !document.getElementById(id))) tell(e, name);
  for (const e of document.querySelectorAll(press)) if (e.parentElement.closest(press)) tell(e, 'within another');
  for (const e of document.querySelectorAll('ul > :not(li), ol > :not(li)')) tell(e, 'no item');
  for (const e of document.querySelectorAll('[tabindex]')) if (e.tabIndex > 0) tell(e, 'an order of its own');
  const heads = [...document.querySelectorAll('h1')].filter((e) => e.getClientRects().length).length;
  if (heads !== 1 && !document.querySelector('dialog[open]')) wrong.push(`${heads} first headings`);
  return wrong;'''
# What stands where assistive software does not look for it: a text outside all landmarks, a part of a list or of a grid
# without the whole, a name on what has no role, a thing to press within what is hidden from it, a heading two levels
# below the one before. And what is less than 24 pixels wide or high, but a link within a sentence.
MISPLACED = '''const wrong = [], root = document.querySelector('dialog[open]') || document.body;
  const tell = (e, why) => wrong.push(`${why}: ${e.outerHTML.slice(0, 80)}`);
  const press = 'a[href], button, input, select, summary';
  const parents = { LI: 'ul, ol', DT: 'dl', DD: 'dl', TD: 'tr', TH: 'tr', row: '[role=grid]', gridcell: '[role=row]' };
  const landmarks = 'header, main, nav, aside, dialog, [role=status], [aria-live], .skip';
  let level = 0;
  for (const e of root.querySelectorAll('*')) {
    if (!e.checkVisibility({ contentVisibilityAuto: true, visibilityProperty: true })) continue;
    const role = e.getAttribute('role'), parent = parents[role || e.tagName];
    const own = [...e.childNodes].some((n) => n.nodeType === 3 && n.data.trim());
    if (own && !e.closest(landmarks)) tell(e, 'no landmark');
    if (parent && !e.parentElement.closest(parent)) tell(e, 'alone');
    if (/^(DIV|SPAN|P)$/.test(e.tagName) && !role && e.matches('[aria-label], [aria-labelledby]')) tell(e, 'no role');
    if (e.matches('[aria-hidden=true]') && e.querySelector(press)) tell(e, 'hidden, with what is pressed');
    if (/^H\\d$/.test(e.tagName)) {
      if (e.tagName[1] > level + 1 && root === document.body) tell(e, 'levels are left out');
      level = Number(e.tagName[1]);
    }
    const isInline = e.tagName === 'A' && getComputedStyle(e).display === 'inline';
    if (!e.matches(press) || e.matches('.unseen') || isInline) continue;
    const pressed = e.matches('[type=checkbox], [type=radio]') ? e.closest('label') : e;
    const { width, height } = pressed.getBoundingClientRect();
    if (width < 24 || height < 24) tell(e, `${Math.round(width)} x ${Math.round(height)} pixels`);
  }
  return wrong;'''
# What Tab is to come to, in this order, and what it has come to.
STOPS = '''const root = document.querySelector('dialog[open]') || document.body, groups = new Set();
  const isSeen = (e) => e.checkVisibility({ contentVisibilityAuto: true, visibilityProperty: true });
  window.stopOf = (e) => (e.type === 'radio' ? `${e.form ? e.form.id : ''} ${e.name}` : e.outerHTML.slice(0, 200));
  return [...root.querySelectorAll('a[href], button, input, select, textarea, summary, [tabindex]')].filter((e) => {
    if (e.tabIndex < 0 || e.disabled || !isSeen(e)) return false;
    const isNew = e.type !== 'radio' || !groups.has(stopOf(e));
    groups.add(stopOf(e));
    return isNew; }).map(stopOf);'''
STOP = '''const e = document.activeElement;
  return !e || e === document.body ? '' : e.type === 'date' ? `date ${stopOf(e)}` : stopOf(e);'''
# Ids that stand twice.
TWICE = '''const ids = [...document.querySelectorAll('[id]')].map((e) => e.id);
  return ids.filter((id, at) => ids.indexOf(id) !== at);'''


def reads_well(person, what, scripts=(PALE, NAMELESS, TWICE, STUMBLES, MISPLACED)):
    """All of it, dark and light."""
    for dark in (True, False):
        person.media(dark)
        time.sleep(0.1)
        for script in scripts:
            found = person.run(script)
            person.is_so(found == [], '%s: %s' % (what, found))
    return person


def on_screens(person, what, screens=SCREENS):
    """Each screen: what is looked at there, its width and height, and whether it is a phone's. Nothing may be beyond
    its side."""
    for width, height, phone in screens:
        person.screen(width, height, 1, phone)
        time.sleep(0.3)
        told = '%s, %d x %d' % (what, width, height)
        person.is_so(person.width() <= width, '%s: nothing is beyond the side: %d' % (told, person.width()))
        yield told, width, height, phone
    person.media().screen(1280, 800)


def well_on_screens(person, what, css=''):
    """Nothing is beyond the side, pale, nameless or stumbled over, on every screen, light and dark; Tab goes through it
    on the first and on the last."""
    if css:
        person.finds(css, what)
    for told, *screen in on_screens(person, what):
        reads_well(person, told)
        if tuple(screen) in (SCREENS[0], SCREENS[-1]):
            keys_go_round(person, told)
    return person


def keys_go_round(person, what):
    """Tab comes to all that is pressed, in its order, is held nowhere, and what has the keys shows it."""
    wanted, found = person.run(STOPS), []
    person.run('document.activeElement.blur(); getSelection().removeAllRanges(); scrollTo(0, 0)')
    for _ in range(len(wanted) + 12):
        person.keys(Keys.TAB)
        stop = person.run(STOP)
        # (a date has stops of its own)
        if stop.startswith('date ') and found[-1:] == [stop[5:]]:
            continue
        unshown = stop and person.run(UNSHOWN)
        person.is_so(not unshown, '%s: what has the keys shows it: %s' % (what, unshown))
        stop = stop.removeprefix('date ')
        person.is_so(not stop or found[-1:] != [stop] or len(wanted) == 1, '%s: Tab is held at %s' % (what, stop))
        if found and stop == found[0]:
            break
        if stop in wanted:
            found.append(stop)
    # (what came or went meanwhile, as a banner does, is left out)
    stays = set(person.run(STOPS)) & set(wanted)
    person.is_so(stays <= set(found), '%s: Tab comes to all: %s' % (what, stays - set(found)))
    wanted, found = ([one for one in dict.fromkeys(stops) if one in stays] for stops in (wanted, found))
    turned = found.index(wanted[0]) if wanted else 0
    return person.is_so(found[turned:] + found[:turned] == wanted, '%s: in their order' % what)
