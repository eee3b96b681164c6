"""People before a browser: Chromium by Selenium, each person with a profile of their own."""

import contextlib
import os
import re
import signal
import subprocess
import time

from selenium.common.exceptions import StaleElementReferenceException, WebDriverException
from selenium.webdriver.common.action_chains import ActionChains
from selenium.webdriver.common.by import By
from selenium.webdriver.common.keys import Keys

from lib.chromium import chromium
from lib.program import Wrong, wrong_if

PATIENCE = 60
# What the page sends is written down before the socket takes it, and what stands behind # when the body begins.
SPY = '''new MutationObserver((_, watch) => {
  if (document.body) { window.hashAtBody = location.hash; watch.disconnect(); } }).observe(document, {childList: true,
  subtree: true});
window.sentLines = []; window.breaches = []; window.tries = []; window.tables = 0;
window.WebSocket = class extends WebSocket {
  constructor(...words) { super(...words); tries.push(performance.now()); } };
 window.spied = WebSocket.prototype.send;
window.fetch = ((ask) => async (...words) => {
  const answer = await ask(...words);
  if (String(words[0]).endsWith('/games.json')) window.tables += 1;
  return answer; })(window.fetch);
WebSocket.prototype.send = function (line) {
  if (window.lastSocket !== this) this.addEventListener('message', (event) => {
    if (event.data.startsWith('ok lobby')) window.tables += 1;
    if (/^no (1|2|34|37) /.test(event.data)) window.breaches.push(event.data.trim()); });
  window.lastSocket = this; window.sentLines.push(line);
  return window.spied.call(this, line); };'''


# Of an element and a part of its text: why nobody sees it there, '' where it is seen, as far as one scrolls. What the
# head's line tells at a board is seen where that is pressed.
UNSEEN = '''const [css, part] = arguments, e = document.querySelector(css);
  if (!e) return 'is not there';
  const nodes = [], walk = document.createTreeWalker(e, NodeFilter.SHOW_TEXT);
  while (walk.nextNode()) nodes.push(walk.currentNode);
  const text = nodes.map((node) => node.data).join(''), modal = document.querySelector('dialog:modal');
  const place = (at, isEnd) => { for (const node of nodes) { const { length } = node.data;
    if (at < length || isEnd && at === length) return [node, at]; at -= length; } };
  const covered = (at, x, y) => {
    if (x < 0 || x >= innerWidth) return 'is beyond the side';
    if (modal && !modal.contains(at)) return '';
    const hit = document.elementFromPoint(x, y);
    return hit && e.contains(hit) ? '' : `is covered by ${hit ? hit.outerHTML.slice(0, 60) : 'nothing'}`; };
  const unseen = (start) => {
    const range = document.createRange();
    range.setStart(...place(start, false));
    range.setEnd(...place(start + part.length, true));
    const at = range.startContainer.parentElement;
    if (!at.checkVisibility({ opacityProperty: true, visibilityProperty: true })) return 'is not displayed';
    at.scrollIntoView({ block: 'nearest', inline: 'nearest' });
    const boxes = [...range.getClientRects()].filter(({ width, height }) => width > 1 && height > 1);
    if (!boxes.length) return 'has no place';
    return boxes.filter(({ top, bottom }) => top + bottom >= 0 && top + bottom < 2 * innerHeight)
      .flatMap(({ left, right, top, bottom }) => (right - left > 8 ? [left + 2, (left + right) / 2, right - 2]
        : [(left + right) / 2]).map((x) => covered(at, x, (top + bottom) / 2))).find(Boolean) || ''; };
  const news = e.closest('#news'), telling = document.querySelector('#telling'), scrolled = [];
  const isTold = news && telling.checkVisibility() && !news.classList.contains('open');
  for (const one of document.querySelectorAll('*'))
    if (one.scrollTop || one.scrollLeft || one.contains(e) || e.contains(one))
      scrolled.push([one, one.scrollTop, one.scrollLeft]);
  if (isTold) news.classList.add('open');
  let found = part ? 'does not stand there' : '';
  for (let start = text.indexOf(part); part && start >= 0 && found; start = text.indexOf(part, start + 1))
    found = unseen(start);
  if (isTold) news.classList.remove('open');
  for (const [one, top, left] of scrolled) Object.assign(one, { scrollTop: top, scrollLeft: left });
  return found;'''


class Together:
    """Several persons, of whom each does or sees the same, one after the other."""

    def __init__(self, *people):
        self.people = people

    def __iter__(self):
        return iter(self.people)

    def __getattr__(self, name):
        def each(*words, **how):
            for person in self.people:
                getattr(person, name)(*words, **how)
            return self
        return each


class Person:
    """What is done, looked at and waited for returns the person, so that an act and what it shows stand in one line. Of
    a thing that is waited for, `what` says it in words."""

    def __init__(self, name, folder, checked):
        self.name, self.checked, self.board = name, checked, '#board'
        self.profile = os.path.join(folder, 'profile-' + name)
        self.driver = chromium(self.profile, '--hide-scrollbars',
                               '--disable-renderer-backgrounding', '--disable-background-timer-throttling')
        self.cdp('Page.addScriptToEvaluateOnNewDocument', source=SPY)
        self.cdp('Browser.grantPermissions', permissions=['clipboardReadWrite'])
        self.screen(1280, 800)

    def cdp(self, word, **given):
        return self.driver.execute_cdp_cmd(word, given)

    def screen(self, width, height, scale=1, phone=False):
        self.cdp('Emulation.setDeviceMetricsOverride', width=width, height=height,
                 deviceScaleFactor=scale, mobile=phone)
        self.cdp('Emulation.setTouchEmulationEnabled', enabled=phone)
        return self

    def media(self, dark=False, still=False):
        self.cdp('Emulation.setEmulatedMedia', features=[
            {'name': 'prefers-color-scheme', 'value': 'dark' if dark else 'light'},
            {'name': 'prefers-reduced-motion', 'value': 'reduce' if still else 'no-preference'}])
        return self

    def close(self):
        try:
            self.driver.quit()
        except WebDriverException:
            pass

    def dies(self):
        """The browser is killed, with all of its processes: it says nothing any more."""
        said = subprocess.run(['ps', '-eo', 'pid=,args='], capture_output=True, text=True, check=True).stdout
        for pid, words in (line.split(maxsplit=1) for line in said.splitlines()):
            if '--user-data-dir=' + self.profile in words:
                with contextlib.suppress(ProcessLookupError):
                    os.kill(int(pid), signal.SIGKILL)
        self.close()

    # ---- looking

    def go(self, address):
        self.driver.get(address)
        return self

    def goes(self, view):
        """To another view of the page: '' is the table."""
        self.run('location.hash = "#/" + arguments[0]', view)
        return self

    def takes(self, token):
        """A personal link is opened."""
        self.run('location.hash = "#" + arguments[0]', token)
        return self

    def reload(self):
        self.driver.refresh()
        return self

    def run(self, script, *given):
        return self.driver.execute_script(script, *given)

    def find(self, css):
        found = [one for one in self.driver.find_elements(By.CSS_SELECTOR, css) if one.is_displayed()]
        return found[0] if found else None

    def sees(self, css):
        try:
            return self.find(css) is not None
        except StaleElementReferenceException:
            return self.find(css) is not None

    def text(self, css):
        return self.run('const e = document.querySelector(arguments[0]); return e ? e.textContent.trim() : ""', css)

    def shown(self, css):
        return self.run('const e = document.querySelector(arguments[0]); return e ? e.innerText.trim() : ""', css)

    def until(self, holds, what, patience=PATIENCE):
        """Waits until it holds; counts as a check."""
        end, error = time.monotonic() + patience, ''
        while True:
            try:
                if holds():
                    self.checked(what)
                    return self
                error = ''
            except (WebDriverException, TypeError, AttributeError) as now:
                error = ' (%s)' % str(now).splitlines()[0]
            wrong_if(time.monotonic() > end, '%s: %s%s' % (self.name, what, error))
            time.sleep(0.03)

    def is_so(self, holds, what):
        wrong_if(not holds, '%s: %s' % (self.name, what))
        self.checked(what)
        return self

    def has(self, css, what):
        return self.is_so(self.sees(css), what)

    def lacks(self, css, what):
        return self.is_so(not self.sees(css), what)

    def finds(self, css, what, patience=PATIENCE):
        return self.until(lambda: self.sees(css), what, patience)

    def loses(self, css, what, patience=PATIENCE):
        return self.until(lambda: not self.sees(css), what, patience)

    def shows(self, css, text, what, patience=PATIENCE):
        return self.until(lambda: self.text(css) == text, what, patience)

    def moved(self, moves, what):
        return self.until(lambda: self.moves() == moves, what)

    def on_move(self):
        return self.until(lambda: self.lit('.movable'), 'is on move')

    def hears(self, part, what, css='#says'):
        return self.until(lambda: part in self.text(css), what)

    def unseen(self, css, part):
        return self.run(UNSEEN, css, part)

    def reads(self, css, *parts, patience=PATIENCE):
        """Each of these parts of a text stands there, in sight."""
        for part in parts:
            try:
                self.until(lambda: part in self.text(css) and not self.unseen(css, part), '%s reads %r' % (css, part),
                           patience)
            except Wrong as wrong:
                raise Wrong('%s; it reads %r, which %s' % (wrong, self.text(css), self.unseen(css, part))) from None
        return self

    def focused(self, what):
        """This of the element that has the keys."""
        return self.run('return document.activeElement.' + what)

    def box(self, css):
        """Where an element stands."""
        return self.run('return document.querySelector(arguments[0]).getBoundingClientRect().toJSON()', css)

    def width(self):
        return self.run('return document.documentElement.scrollWidth')

    def clipboard(self):
        return self.driver.execute_async_script('navigator.clipboard.readText().then(arguments[0])')

    def men(self):
        """The men on the board by the names of the squares, as who listens hears them."""
        return self.run('''return Object.fromEntries([...document.querySelectorAll(arguments[0] + ' [data-square]')]
            .map((e) => [e.dataset.square, (e.getAttribute('aria-label').match(/(white|black) \\w+/) || [''])[0]])
            .filter((pair) => pair[1]))''', self.board)

    def lit(self, kind='.target, .taking'):
        return set(self.run('''return [...document.querySelectorAll(arguments[1] + ' .square')]
            .filter((e) => e.matches(arguments[0])).map((e) => e.dataset.square)''', kind, self.board))

    def sent(self, front=''):
        """The lines that the page has sent which begin so."""
        return [line for line in self.run('return window.sentLines') if line.startswith(front)]

    def breaches(self):
        """Refusals that a page never has to bring about: no line of the protocol, too fast, too many watched."""
        return self.run('return window.breaches || []')

    def forget_sent(self):
        self.run('window.sentLines.length = 0')
        return self

    def said(self):
        return self.text('#says')

    def moves(self):
        return self.run('return [...document.querySelectorAll("#moves button")].map((e) => e.textContent)')

    def complaints(self):
        """What the browser's console says is wrong, as a breach of the policy or an error of a script; not that who is
        asked is away, or that there is no file so far, as where a lobby has just begun."""
        return [entry['message'] for entry in self.driver.get_log('browser')
                if entry['level'] == 'SEVERE' and 'WebSocket connection to' not in entry['message']
                and not re.search('ERR_(CONNECTION_(REFUSED|RESET)|EMPTY_RESPONSE)', entry['message'])
                and not re.search(r'/(games/\d+\.json|round\.json|kept\.pgn) - .* 404 ', entry['message'])]

    def is_quiet(self):
        complaints = self.complaints()
        return self.is_so(complaints == [], 'the console is quiet: %s' % complaints)

    # ---- doing

    def click(self, *places):
        for css in places:
            def clicked():
                found = self.find(css)
                if found is None or not found.is_enabled():
                    return False
                found.click()
                return True
            self.until(clicked, 'there is %s to click' % css)
        return self

    def type(self, css, text):
        field = self.find(css)
        field.clear()
        field.send_keys(text)
        return self

    def square(self, name):
        return self.driver.find_element(By.CSS_SELECTOR, '%s [data-square="%s"]' % (self.board, name))

    def middles(self, names):
        """Where the middles of these squares stand."""
        boxes = [self.run('return arguments[0].getBoundingClientRect().toJSON()', self.square(name)) for name in names]
        return [{'x': box['x'] + box['width'] / 2, 'y': box['y'] + box['height'] / 2} for box in boxes]

    def actions(self):
        return ActionChains(self.driver, duration=20)

    def tap(self, *names):
        for name in names:
            self.actions().move_to_element(self.square(name)).click().perform()
        return self

    def click_move(self, move):
        return self.tap(move[:2], move[2:4])

    def moves_on(self, move):
        """Moves once it is on move."""
        return self.on_move().click_move(move)

    def asked(self, button, answer='yes'):
        """Presses a button, and answers what its dialog asks."""
        return self.click(button, '%s-dialog [value=%s]' % (button, answer))

    def drag_move(self, *moves):
        for move in moves:
            start, end = self.square(move[:2]), self.square(move[2:4])
            self.actions().move_to_element(start).click_and_hold().move_to_element(end).release().perform()
        return self

    def touch(self, *squares):
        """A finger goes down on the first square, over the others, and up at the last."""
        points = self.middles(squares)
        self.cdp('Input.dispatchTouchEvent', type='touchStart', touchPoints=points[:1])
        for point in points[1:]:
            self.cdp('Input.dispatchTouchEvent', type='touchMove', touchPoints=[point])
        self.cdp('Input.dispatchTouchEvent', type='touchEnd', touchPoints=[])
        return self

    def right_button(self, start, end=None, shift=False):
        """The right button goes down on a square and up on another."""
        for kind, point in zip(('mousePressed', 'mouseReleased'), self.middles((start, end or start))):
            self.cdp('Input.dispatchMouseEvent', type='mouseMoved', button='right', **point)
            self.cdp('Input.dispatchMouseEvent', type=kind, button='right', clickCount=1, modifiers=8 if shift else 0,
                     **point)

    def keys(self, *keys):
        chain = self.actions()
        for key in keys:
            chain = chain.send_keys(key)
        chain.perform()
        return self

    def tab_to(self, css, most=90):
        """Tab until this has the keys."""
        for _ in range(most):
            if self.run('return document.activeElement.matches(arguments[0])', css):
                self.checked('Tab comes to ' + css)
                return self
            self.keys(Keys.TAB)
        raise Wrong('%s: Tab does not come to %s' % (self.name, css))

    def heard(self):
        """What a screen reader finds: roles with their names, in order."""
        nodes = self.cdp('Accessibility.getFullAXTree')['nodes']
        return [(node['role']['value'], node.get('name', {}).get('value', '')) for node in nodes if not node['ignored']]

    def walk(self, start, end):
        """Arrow keys over the board, which White sees from below."""
        right, up = ord(end[0]) - ord(start[0]), int(end[1]) - int(start[1])
        self.keys(*[Keys.ARROW_RIGHT if right > 0 else Keys.ARROW_LEFT] * abs(right),
                  *[Keys.ARROW_UP if up > 0 else Keys.ARROW_DOWN] * abs(up))

    def picture(self, path, colours=64):
        """A screenshot, with few colours where Pillow is there, so that it is small."""
        self.driver.save_screenshot(path)
        try:
            from PIL import Image
        except ImportError:
            return
        with Image.open(path) as image:
            small = image.convert('RGB').quantize(colours, dither=Image.Dither.NONE)
        small.save(path, optimize=True)
