"""Scenes of bench/browser/page: what players want of an evening beside the moves themselves."""

import os
import re
import shutil
import subprocess
import tempfile
import time

from lib.browser import Keys
from lib.net import Door
from lib.program import content, laid_out, path_of, put
from lib.web import Guest
from page_lines import by_lines, truth
from readable import COORDINATES, SIDEWAYS, keys_go_round, on_screens, reads_well, well_on_screens

FOOLS = ['f2f3', 'e7e5', 'g2g4', 'd8h4']
ROOK_AND_KING = '4k3/8/8/8/8/8/8/R3K3 w - - 0 1'


def no_dead_buttons(hall):
    """A game is asked for while the lobby is killed: "Rematch" works after that as before it."""
    number, ann, bob, _ = hall.begin(minutes='20')
    hall.play(FOOLS)
    bob.reads('#again', 'Rematch')
    ann.goes('')
    hall.lobby.control('slow 700')
    ann.goes('game/' + number)
    time.sleep(0.3)
    hall.lobby.kill()
    ann.finds('#lost', 'the answers are lost')
    hall.lobby.start()
    hall.lobby.control('slow 0')
    ann.loses('#lost', 'the lobby is back', 40)
    ann.until(lambda: ann.sees('#again') and ann.find('#again').is_enabled(), 'the game is shown again')
    ann.click('#again').reads('#challenges', 'You offer Bob')
    bob.reads('#challenges', 'Ann Lee offers you a game, 20+3: you are White')
    bob.click('#telling-opens', '#challenges .banner button.strong').until(lambda: not bob.driver.current_url.endswith('/' + number),
                                                         'another game is there')
    ann.reads('#outcome', 'Waiting for your opponent')
    ann.is_quiet()


def handy_moves(hall):
    """A king that is put on its rook castles; a mate is said behind its move; the tab says that a draw is offered."""
    _, ann, bob, sue = hall.begin(fen='r3k2r/pppppppp/8/8/8/8/PPPPPPPP/R3K2R w KQkq - 0 1', minutes='20')
    ann.tap('e1').is_so('g1' in ann.lit() and 'h1' not in ann.lit(), 'the king’s squares are lit, and no rook')
    ann.tap('h1')
    bob.moved(['O-O'], 'the rook was meant as the square beside it')
    bob.on_move()
    bob.drag_move('e8a8')
    ann.moved(['O-O', 'O-O-O'], 'by dragging too, to the other side')
    ann.on_move()
    ann.tap('g1', 'f1').is_so(ann.lit('.held') == {'f1'}, 'where the king cannot castle the rook is taken')
    ann.tap('a5')
    bob.asked('#offer')
    ann.until(lambda: ann.driver.title.startswith('Draw offered:'), 'the tab says so')
    ann.click('#decline').until(lambda: ann.driver.title.startswith('Your turn:'), 'and whose turn it is')
    hall.open(minutes='20')
    hall.play(FOOLS)
    for person in (ann, bob, sue):
        person.hears('Black wins by checkmate', 'the end is said')
        said = person.said()
        mate, end = said.find('queen h4, checkmate'), said.find('Black wins by checkmate')
        person.is_so(-1 < mate < end, 'behind the move: ' + said)


def full_names(hall):
    """Who watches without a link sees full names, also of players that sat down after the page was loaded."""
    _, _, sue = hall.sit()
    number = hall.set_up()
    sue.goes('game/' + number).reads('#no-game-words', 'is not being played')
    hall.bob.click('[data-key="join-%s"]' % number)
    for name in ('ann', 'bob'):
        sue.until(lambda: hall.lobby.full[name] in sue.text('.facts'), 'who plays: ' + name)
    sue.goes('hall/' + number).reads('#near .name', hall.lobby.full['ann'])
    sue.goes('').until(lambda: hall.lobby.full['bob'] in sue.text('#running-list'), 'at the table too')


def planned(person):
    return person.lit('.planned')


def planned_moves(hall):
    """A move for the next turn: drawn, taken back by a click, sent where it is among those told, and else not."""
    number, ann, bob, sue = hall.begin(minutes='20', fen='rnbqkbnr/pppppppp/8/8/8/8/PPPPPPPP/RNBQKBNR w KQkq - 0 1')
    bob.until(lambda: bob.lit('.ahead'), 'Black’s men may be moved ahead')
    bob.forget_sent().click_move('g8f6')
    bob.until(lambda: planned(bob) == {'g8', 'f6'}, 'it is drawn')
    bob.reads('#outcome', 'Then g8–f6')
    bob.is_so(bob.men()['g8'] == 'black knight', 'and the man stands still')
    bob.tap('d5').until(lambda: planned(bob) == set(), 'a click takes it back')
    bob.drag_move('e7e5').until(lambda: planned(bob) == {'e7', 'e5'}, 'by dragging too')
    bob.is_so(bob.sent('move') == [], 'nothing is sent before its turn')
    for person in (ann, sue):
        person.is_so(planned(person) == set(), 'nobody else is told')
    ann.click_move('e2e4')
    hall.all.moved(['e4', 'e5'], 'it is played at once')
    bob.is_so(planned(bob) == set() and bob.sent('move') == ['move %s 1 e7e5' % number], 'and sent once')
    bob.forget_sent().click_move('d7d3')
    bob.until(lambda: planned(bob) == {'d7', 'd3'}, 'one that cannot be')
    hall.play(['g1f3'], 2)
    bob.reads('#note', 'Your move from d7 to d3 cannot be made now')
    bob.is_so(bob.sent('move') == [], 'is not sent')
    bob.until(lambda: bob.lit('.movable') and not planned(bob), 'and the turn is Black’s')
    hall.play(['b8c6'], 3)
    bob.click_move('g7g6')
    bob.keys(Keys.HOME).reads('#outcome', 'An earlier position')
    ann.click_move('f1b5')
    ann.until(lambda: ann.moves()[-2:] == ['Bb5', 'g6'], 'it is played for who looks at another position, too')
    hall.play(['b1c3'], 6)
    bob.on_move()
    hall.play(['g6g5'], 7)
    bob.keys('b')
    at = bob.focused('dataset.square')
    bob.is_so(bool(at), 'the keys are on the board')
    bob.run('document.querySelector(\'#board [data-square="g8"]\').focus()')
    bob.keys(Keys.ENTER).hears('for your next move', 'by keys it is said')
    bob.run('document.querySelector(\'#board [data-square="f6"]\').focus()')
    bob.keys(Keys.ENTER)
    bob.until(lambda: 'Your next move: g8 to f6' in bob.said() and planned(bob) == {'g8', 'f6'}, 'and planned')
    bob.keys(Keys.ESCAPE).until(lambda: planned(bob) == set(), 'Escape takes it back')
    bob.click_move('g8f6')
    ann.asked('#resign')
    bob.reads('#outcome', 'Black wins by resignation')
    bob.is_so(planned(bob) == set() and bob.lit('.ahead') == set(), 'nothing is planned in a game that is over')
    hall.open(minutes='20', fen='k7/8/8/8/8/8/p6P/K7 w - - 0 1')
    bob.until(lambda: bob.lit('.ahead'), 'Black’s men')
    bob.click_move('a2a1')
    bob.click_move('a8b7').until(lambda: planned(bob) == {'a8', 'b7'}, 'the later one stands')
    ann.click_move('h2h4').moved(['h4', 'Kb7'], 'and is played')


def asked_first(hall):
    """Where it is wished, a move on the board is sent only once it is agreed to, by a click or Enter."""
    _, ann, bob, _ = hall.begin(minutes='20')
    ann.click('#settings summary', '#ask-first')
    ann.keys(Keys.ESCAPE)
    ann.forget_sent().click_move('e2e4')
    ann.reads('#proposed-words', 'Play pawn e2–e4?')
    ann.is_so(ann.men().get('e4') == 'white pawn' and ann.focused('id') == 'play-it',
              'the man stands there, and Enter agrees')
    ann.keys(Keys.ESCAPE)
    ann.until(lambda: not ann.sees('#proposed') and ann.men().get('e2') == 'white pawn', 'Escape takes it back')
    ann.click_move('d2d4')
    ann.click('#take-it-back').until(lambda: ann.men().get('d2') == 'white pawn', 'so does the button')
    ann.is_so(ann.sent('move') == [], 'nothing was sent')
    ann.click_move('d2d4')
    ann.click('#play-it')
    bob.moved(['d4'], 'who agrees has moved')
    hall.play(['d7d5'], 1)
    ann.moves_on('c2c4')
    ann.keys(Keys.ENTER)
    bob.moved(['d4', 'd5', 'c4'], 'by Enter too')
    hall.play(['e7e6'], 3)
    ann.moves_on('b1c3')
    ann.keys(Keys.ARROW_LEFT).loses('#proposed', 'who looks at another position takes it back')
    ann.keys(Keys.END).until(lambda: ann.men().get('b1') == 'white knight', 'and sees what stands')
    ann.click('#settings summary', '#ask-first')
    ann.keys(Keys.ESCAPE)
    ann.click_move('b1c3')
    bob.until(lambda: bob.moves()[-1:] == ['Nc3'], 'unasked again')


HEARD = '''window.tones = []; const begin = OscillatorNode.prototype.start;
  OscillatorNode.prototype.start = function (at) { tones.push(this.frequency.value); return begin.call(this, at); };'''


def heard_tones(hall):
    """Sounds are on from the first click: move, capture, check, offer, low time and end; a switch is in sight."""
    _, ann, bob, _ = hall.begin(minutes='20')
    ann.run(HEARD)
    tones = lambda: [round(tone) for tone in ann.run('return window.tones.splice(0)')]
    ann.has('#sound[aria-pressed=true]', 'the switch is in sight, and on')
    hall.play(['e2e4'])
    ann.until(lambda: tones() == [320], 'a move')
    hall.play(['d7d5', 'e4d5'], 1)
    ann.until(lambda: tones() == [320, 210], 'and a capture')
    hall.play(['d8d5', 'h2h3', 'd5e5'], 3)
    ann.until(lambda: tones() == [210, 320, 320, 640], 'a check')
    bob.asked('#offer')
    ann.until(lambda: tones() == [440, 550], 'an offer')
    ann.click('#sound').has('#sound[aria-pressed=false]', 'off by one click')
    ann.run('tones.length = 0')
    hall.play(['f1e2'], 6)
    bob.asked('#resign')
    ann.reads('#outcome', 'White wins by resignation')
    time.sleep(0.3)
    ann.is_so(tones() == [], 'then all is quiet')
    ann.reload().finds('#sound[aria-pressed=false]', 'and after a new start')
    ann.run(HEARD)
    ann.click('#sound').until(lambda: tones() == [320], 'on by another')
    number = hall.set_up(minutes='0.4', increment='0')
    ann.run('tones.length = 0')
    bob.click('[data-key="join-%s"]' % number)
    ann.until(lambda: tones() == [880] * 3, 'low time', 30)
    ann.asked('#resign').until(lambda: tones() == [520, 390], 'the end')


def own_marks(hall):
    """The right button draws circles and arrows, for oneself alone; the same again takes one away, a click all."""
    _, ann, _, sue = hall.begin(minutes='20')
    drawn = lambda person: person.run('''return [...document.querySelectorAll('#board .arrows > *')]
        .map((e) => e.getAttribute('class').trim())''')
    ann.forget_sent().right_button('e4')
    ann.right_button('g1', 'f3')
    ann.right_button('d2', 'd4', shift=True)
    ann.until(lambda: drawn(ann) == ['circle', 'arrow', 'arrow other'], 'a circle and two arrows')
    ann.is_so(ann.lit('.held') == set() and ann.sent('move') == [], 'no man is taken')
    ann.is_so(drawn(sue) == [], 'and nobody else sees it')
    ann.right_button('g1', 'f3')
    ann.until(lambda: drawn(ann) == ['circle', 'arrow other'], 'the same again takes it away')
    ann.tap('a5').until(lambda: drawn(ann) == [], 'a click takes all away')
    sue.right_button('b8', 'c6')
    sue.until(lambda: drawn(sue) == ['arrow'], 'who watches draws too')
    hall.play(['e2e4'])
    sue.until(lambda: drawn(sue) == [], 'another position has none')


def taken_men(hall):
    """What a side has taken stands beside its name, and by how much it has more; also in an earlier position."""
    _, ann, bob, sue = hall.begin(minutes='20', fen='4k3/8/8/3q4/4P3/8/8/4K2R w K - 0 1')
    taken = lambda person, css: (len(person.driver.find_elements('css selector', css + ' .taken img')),
                                 person.text(css + ' .taken .ahead'))
    sue.until(lambda: taken(sue, '.player.black') == (0, '+3'), 'who has more at the start')
    hall.play(['e4d5'])
    for person in (ann, bob, sue):
        person.until(lambda: taken(person, '.player.white') == (1, '+6'), 'a queen')
        person.until(lambda: taken(person, '.player.black') == (0, ''), 'and who has lost it')
    sue.is_so(('image', 'Taken: queen; 6 more') in sue.heard() or ('img', 'Taken: queen; 6 more') in sue.heard(),
              'as it is heard')
    sue.keys(Keys.ARROW_LEFT).until(lambda: taken(sue, '.player.white') == (0, ''), 'before it was taken')
    hall.open(minutes='20', fen='4k3/P7/8/8/8/8/8/4K3 w - - 0 1')
    ann.click_move('a7a8')
    ann.click('.promotion [aria-label=queen]')
    ann.until(lambda: taken(ann, '.player.white') == (0, '+9') and taken(ann, '.player.black') == (0, ''),
              'a pawn that has become a queen is not taken')


def boards_and_men(hall):
    """Three boards and three sets of men: chosen at once, on every board, and remembered."""
    _, ann, _, _ = hall.begin(minutes='20')
    men = lambda: ann.run('''return [...document.querySelectorAll('#board .man')].map((e) => [e.src.split('/').pop(),
        e.complete && e.naturalWidth > 0])''')
    ground = 'return getComputedStyle(document.querySelector("#board .square.dark")).backgroundColor'
    seen = set()
    ann.click('#settings summary')
    for board in ('green', 'blue', 'wood'):
        ann.click('.choice:has([name=board][value=%s])' % board)
        seen.add(ann.run(ground))
    ann.is_so(len(seen) == 3, 'three boards: %s' % seen)
    for chosen, prefix in (('bold', 'bold-'), ('plain', 'plain-'), ('club', '')):
        ann.click('.choice:has([name=men][value=%s])' % chosen)
        names = (prefix + 'white-', prefix + 'black-')
        ann.until(lambda: all(name.startswith(names) and there for name, there in men()), 'the men of ' + chosen)
    ann.click('.choice:has([name=men][value=bold])', '.choice:has([name=board][value=blue])')
    blue = ann.run(ground)
    ann.reload()
    ann.until(lambda: len(men()) == 32 and all(name.startswith('bold-') for name, _ in men()), 'after a new start')
    ann.is_so(ann.run(ground) == blue, 'the board too')
    ann.run('localStorage.removeItem("pieces"); localStorage.removeItem("board")')
    ann.reload()


ELSEWHERE = '''window.told = []; window.asked = 0; window.isHidden = false;
  Object.defineProperty(document, 'hidden', { configurable: true, get: () => window.isHidden });
  window.Notification = class { constructor(title, more) { told.push(more.body); } close() {}
    static async requestPermission() { window.asked += 1; return Notification.permission = 'granted'; } };
  Notification.permission = 'default';'''
LOOKS = 'window.isHidden = arguments[0]; document.dispatchEvent(new Event("visibilitychange"));'


def told_elsewhere(hall):
    """Whose turn it is, or who is offered a game, and who looks elsewhere sees it at the tab's icon, and is told where
    that was agreed to."""
    ann, bob, _ = hall.sit()
    hall.fill(minutes='20')
    icon = lambda person: person.run('return document.querySelector("link[rel=icon]").getAttribute("href")')
    for person in (ann, bob):
        person.run('localStorage.removeItem("notices")')
        person.run(ELSEWHERE)
        if person.find('#keep-not'):
            person.click('#keep-not')
    carl = Guest(hall.lobby.port, hall.lobby.tokens['cid'])
    ann.run(LOOKS, True)
    carl.ask('pair cid ann 1200 0')
    ann.until(lambda: icon(ann) == 'icon-turn.svg' and ' offers you a game' in ann.driver.title, 'so is an offer')
    carl.ask('unpair ann')
    ann.until(lambda: icon(ann) == 'icon.svg' and ann.driver.title.startswith('Games'), 'as long as it stands')
    carl.close()
    ann.run(LOOKS, False)
    ann.click('#open-game').reads('#notices', 'Shall this browser tell you')
    ann.click('#notices-yes')
    ann.until(lambda: ann.run('return window.asked') == 1 and not ann.sees('#notices'), 'the browser is asked')
    number = ann.driver.current_url.rsplit('/', 1)[1]
    ann.run(LOOKS, True)
    bob.click('[data-key="join-%s"]' % number)
    ann.until(lambda: icon(ann) == 'icon-turn.svg', 'the icon shows it')
    told = lambda person: person.run('return told')
    ann.until(lambda: any('Game %s against' % number in one for one in told(ann)), 'and it is told')
    ann.run(LOOKS, False)
    ann.until(lambda: icon(ann) == 'icon.svg', 'who looks has seen it')
    hall.watch(number)
    hall.play(['e2e4'])
    bob.lacks('#notices', 'nobody is asked at a board that runs')
    bob.run(LOOKS, True)
    ann.run(LOOKS, True)
    before = len(told(ann))
    bob.click_move('e7e5')
    ann.until(lambda: len(told(ann)) == before + 1, 'each turn is told once')
    bob.is_so(told(bob) == [], 'and nothing to who has not agreed')
    ann.run(LOOKS, False)
    ann.goes('').finds('#open-form', 'the table')
    ann.lacks('#notices', 'it is asked once')
    hall.both.run('localStorage.removeItem("notices")')
    hall.both.reload()


def slow_answers(hall):
    """A move that is not answered within a second looks as such, and within four the page says so."""
    _, ann, _, _ = hall.begin(minutes='20')
    hall.lobby.control('slow 1800')
    ann.click_move('e2e4').finds('.board.sending .man.untold', 'it looks as such', 3)
    ann.reads('#outcome', 'Sending', patience=3)
    ann.until(lambda: ann.moves() == ['e4'] and not ann.sees('.board.sending'), 'until it is answered', 8)
    ann.lacks('#note', 'and nothing more is said')
    hall.lobby.control('slow 0')
    hall.play(['e7e5'], 1)
    ann.on_move()
    hall.lobby.control('silent')
    time.sleep(0.3)
    ann.click_move('g1f3').finds('.board.sending .man.untold', 'a line that hangs', 3)
    ann.reads('#note', 'has not been answered for 4 seconds', patience=5)
    hall.lobby.kill()
    hall.lobby.start()
    ann.reads('#note', 'has not been taken so far', patience=40)
    hall.all.reload()


def foreign_links(hall):
    """A link cut short says so; another player's asks first; one's own new one does not; a closed one says so; and one
    holds where the page does not come whole."""
    number, ann, bob, sue = hall.begin(minutes='20')
    tokens, full = hall.lobby.tokens, hall.lobby.full
    sue.go('about:blank').go(hall.lobby.address + '#' + tokens['bob'][:20])
    sue.reads('#told', 'This link is cut short: 20 of its 32')
    well_on_screens(sue, 'what is told of a link')
    sue.is_so(sue.text('#who-name') == 'Not signed in', 'and not that one watches')
    sue.is_so(tokens['bob'][:20] not in sue.driver.current_url, 'it is out of the address bar')
    ann.takes(tokens['bob'][:31]).reads('#told', 'This link is cut short: 31 of its 32')
    ann.is_so(ann.text('#who-name') == full['ann'], 'who is here stays')
    ann.goes('game/' + number).finds('#resign', 'at the board')
    ann.takes(tokens['bob'])
    ann.reads('#other-title', 'You are %s here. Play as %s instead?' % (full['ann'], full['bob']))
    kept = ann.run('return sessionStorage.getItem("token")')
    ann.is_so(ann.text('#who-name') == full['ann'] and kept == tokens['ann'], 'Ann until then')
    well_on_screens(ann, 'another player’s link', '#other-dialog')
    ann.click('#other-no').loses('#other-dialog', 'who stays')
    ann.goes('game/' + number).until(lambda: ann.sees('#resign') and ann.lit('.movable'), 'has the seat still')
    ann.click_move('e2e4')
    bob.moved(['e4'], 'and plays on')
    ann.takes(tokens['bob'])
    ann.click('#other-yes').shows('#who-name', full['bob'], 'who agrees plays as the other')
    ann.run('sessionStorage.clear()')
    hall.sit('ann')
    ann.goes('game/' + number).finds('#resign', 'ann is back')
    found = by_lines(hall, 'eve', 'link ann', person=sue)[0]
    ann.reads('#told', 'Your personal link does not hold', patience=9)
    ann.is_so(ann.text('#who-name') == 'Watching' and not ann.sees('#resign'), 'without an act of hers')
    tokens['ann'] = found.rsplit(' ', 1)[1]
    ann.takes(tokens['ann']).shows('#who-name', full['ann'], 'one’s own new link signs in')
    ann.lacks('#other-dialog', 'and asks nothing')
    sue.cdp('Network.enable')
    sue.cdp('Network.setBlockedURLs', urls=['*/kept.js'])
    sue.go('about:blank').go(hall.lobby.address + '#' + tokens['dee'])
    sue.is_so(sue.text('#who-name') == 'Watching', 'a script of the page has not come')
    sue.cdp('Network.setBlockedURLs', urls=[])
    sue.shows('#who-name', full['dee'], 'the page comes once more, with the link')
    sue.run('sessionStorage.clear()')
    sue.driver.get_log('browser')
    sue.reload()


OVERLAPS = '''const parts = ['#board .board', '#far', '#near', '.record', '#outcome', '#offered', '#actions',
    '#move-form', '.facts-head', '.sharing'].map((css) => [css, document.querySelector(css)])
    .filter(([, e]) => e.getClientRects().length).map(([css, e]) => [css, e.getBoundingClientRect()]);
  const over = [];
  parts.forEach(([a, one], at) => parts.slice(at + 1).forEach(([b, two]) => {
    const wide = Math.min(one.right, two.right) - Math.max(one.left, two.left);
    const high = Math.min(one.bottom, two.bottom) - Math.max(one.top, two.top);
    if (wide > 1 && high > 1) over.push(`${a} over ${b}`); }));
  const cut = parts.filter(([, box]) => box.left < -1 || box.right > innerWidth + 1).map(([css]) => `${css} beyond it`);
  return [...over, ...cut];'''
ROOM = '''const [list, row] = ['#moves', '#moves li'].map((css) => document.querySelector(css).getBoundingClientRect());
  return list.height / row.height;'''


# Squares and what is pressed, whose middles are in sight and belong to something else.
COVERED = '''const press = '#board [data-square], .game-view button, .game-view input, .top a, .top summary, .top button';
  return [...document.querySelectorAll(press)].filter((e) => {
    const { x, y, width, height } = e.getBoundingClientRect();
    const there = width && e.checkVisibility({ contentVisibilityAuto: true }) && document.elementFromPoint(x + width / 2, y + height / 2);
    return there && !e.contains(there) && !there.contains(e) && !there.closest('#board');
  }).map((e) => e.id || e.dataset.square || e.textContent)'''


def room_for_all(hall):
    """Screens of seven sizes: nothing lies over anything, the list of moves has room, the board is in sight."""
    number, ann, bob, sue = hall.begin(minutes='90', increment='30', second=('40', '30'))
    hall.play(['e2e4', 'e7e5', 'g1f3', 'b8c6', 'f1b5', 'a7a6', 'b5c6', 'd7c6', 'e1g1', 'f7f6'])
    bob.asked('#offer')
    ann.finds('#offered', 'an offer')
    for person in (ann, bob, sue):
        for what, _, height, phone in on_screens(person, person.name):
            person.is_so(person.run(OVERLAPS) == [], '%s: %s' % (what, person.run(OVERLAPS)))
            box = person.box('#board .board')
            person.is_so(box['top'] >= 0 and box['bottom'] <= height, '%s: the board is in sight: %s' % (what, box))
            low = person.run('return document.querySelector("#near .clock").getBoundingClientRect().bottom')
            person.is_so(low <= height, '%s: both clocks are in sight: %s' % (what, low))
            if not phone:
                person.is_so(person.run(ROOM) >= 3, '%s: the list has room: %s rows' % (what, person.run(ROOM)))
    ann.click('#accept')
    bob.reads('#outcome', 'Draw by agreement')
    hall.watch(number)


# What of these is not in sight as a whole, on a screen that was not scrolled.
BEYOND = '''return arguments[0].filter((css) => { const box = document.querySelector(css).getBoundingClientRect();
    return !box.height || Math.min(box.top, box.left) < -1 || box.bottom > innerHeight + 1
      || box.right > innerWidth + 1; });'''
# Of each player what lies over the name, and a name of which too little can be read.
SQUEEZED = '''return ['#far', '#near'].filter((place) => {
    const box = (part) => document.querySelector(`${place} ${part}`).getBoundingClientRect();
    const [name, clock, below] = ['.name', '.clock', '.below'].map(box);
    return name.right > clock.left + 1 || name.bottom > below.top + 3 || name.width < 40; });'''
BOTH = ['#board .board', '#far .name', '#far .clock', '#near .name', '#near .clock', '#moves [aria-current]']
ACTS = ['#offer', '#claim', '#resign']


def is_on_its_side(person, what, *acts):
    """On its side a phone shows the whole board, as large as it can be, both clocks, the last move, and this."""
    for told, _, height, _ in on_screens(person, what, SIDEWAYS):
        beyond = person.run(BEYOND, [*BOTH, *acts])
        person.is_so(beyond == [], '%s: in sight: %s' % (told, beyond))
        person.is_so(person.run(OVERLAPS) == [], '%s: %s' % (told, person.run(OVERLAPS)))
        person.is_so(person.run(SQUEEZED) == [], '%s: names: %s' % (told, person.run(SQUEEZED)))
        least = 0.66 if person.sees('#linked') else 0.84
        person.is_so(person.box('#board .board')['height'] >= least * height, '%s: the board is large' % told)
    return person


def a_phone_on_its_side(hall):
    """A phone on its side, in a game: the whole board, both clocks, the moves and what can be done are in sight, for
    who plays and who watches, where a draw is offered, behind the end, and in every language; a finger plays there."""
    number, ann, bob, sue = hall.begin(minutes='90', increment='30', second=('40', '30'))
    hall.play(['e2e4', 'e7e5', 'g1f3', 'b8c6', 'f1b5', 'a7a6', 'b5c6', 'd7c6', 'e1g1'])
    for person in (ann, bob, sue):
        is_on_its_side(person, person.name, *ACTS if person is not sue else ())
    bob.screen(*SIDEWAYS[0][:2], 1, True)
    time.sleep(0.3)
    bob.touch('f7').until(lambda: bob.lit() == {'f6', 'f5'}, 'a touch takes a man')
    bob.touch('f6')
    ann.until(lambda: len(ann.moves()) == 10, 'and puts it down')
    bob.asked('#offer')
    ann.finds('#offered', 'an offer')
    is_on_its_side(ann, 'an offer', '#accept', '#decline', '#resign')
    for width, height, phone in SIDEWAYS[::2]:
        ann.screen(width, height, 1, phone)
        time.sleep(0.3)
        reads_well(ann, 'an offer, %d x %d' % (width, height))
    keys_go_round(ann, 'a phone on its side')
    ann.click('#decline')
    for language in in_languages(ann):
        ann.reload().finds('#resign', 'the game in ' + language).finds('#moves [aria-current]', 'its moves')
        ann.is_so(ann.run('return document.documentElement.lang') == language, language)
        is_on_its_side(ann, language, *ACTS)
    ann.asked('#resign')
    ann.reads('#outcome', 'Black wins by resignation')
    is_on_its_side(ann, 'behind the end', '#outcome')
    for view, css in (('again/' + number, '#again-board .board'), ('', '#over-list'), ('games', '#finished-save'),
                      ('hall', '#hall-none'), ('round', '#round-none')):
        ann.goes(view).finds(css, view)
        for told, *_ in on_screens(ann, view, SIDEWAYS):
            if view.startswith('again'):
                beyond = ann.run(BEYOND, [css, '#again-next'])
                ann.is_so(beyond == [], '%s: in sight: %s' % (told, beyond))
    ann.is_quiet()


def read_by_all(hall):
    """Coordinates of 4.5 to 1 on every board; each view, menu and question fits, can be read, light and dark, has
    names, and is gone through by Tab, on every screen."""
    ann, bob, sue = hall.sit()
    number, well = hall.set_up(minutes='20'), well_on_screens
    for person, view, css in ((ann, '', '#open-game'), (sue, '', '#only-watching'), (sue, 'hall', '#hall-none'),
                              (sue, 'again', '#again-board'), (sue, 'games', '#finished-save'),
                              (sue, 'arbiter', '#arbiter-only'), (sue, 'game/9999', '#no-game'),
                              (sue, 'round', '#round-none'),
                              (ann, 'game/' + number, '#drop')):
        person.goes(view).run('for (const one of document.querySelectorAll("main details")) one.open = true')
        well(person, view or 'the table', css)
    bob.click('[data-key="join-%s"]' % number)
    hall.both.finds('#resign', 'the game has begun')
    hall.watch(number)
    for board in ('wood', 'green', 'blue'):
        ann.run('document.documentElement.dataset.board = arguments[0]', board)
        reads_well(ann, 'coordinates on ' + board, (COORDINATES,))
    ann.run('delete document.documentElement.dataset.board; localStorage.setItem("ask-first", "on")')
    ann.click_move('e2e4')
    well(ann, 'a move that is asked about', '#proposed')
    ann.click('#play-it')
    hall.play(['e7e5'], 1)
    ann.run('localStorage.removeItem("ask-first")')
    hall.play(['g1f3'], 2)
    ann.click_move('d2d4').until(lambda: planned(ann), 'a move ahead')
    well(ann, 'a move ahead')
    ann.tap('a5').until(lambda: not planned(ann), 'taken back')
    other = by_lines(hall, 'eve', 'pair ann cid 1200 0')[0].split(' ')[2]
    ann.reads('#telling-words', 'Your game %s against' % other)
    well(ann, 'another game of one’s own', '#telling.urgent')
    by_lines(hall, 'eve', 'as cid resign ' + other)
    bob.asked('#offer')
    well(ann, 'an offer', '#offered')
    hall.play(['b8c6'], 3)
    ann.click('#decline')
    for button, part in (('#offer', '#offer-dialog'), ('#resign', '#resign-dialog'), ('#claim', '#claim-dialog'),
                         ('#help', '#help-dialog'), ('#settings summary', '#settings .menu'),
                         ('#who summary', '#who .menu')):
        ann.click(button)
        well(ann, part, part)
        ann.keys(Keys.ESCAPE)
        ann.run('for (const one of document.querySelectorAll(".who")) one.open = false')
    for view, css in (('hall', '.card .board'), ('hall/' + number, '#big-screen'),
                      ('again/' + number, '#again-moves button'), ('game/' + number, '#moves button')):
        sue.goes(view)
        well(sue, view, css)
    for path in ('board/' + number, 'boards'):
        sue.go(hall.lobby.address + path)
        well(sue, path, '.board')
    sue.go(hall.lobby.address)
    hall.signs_in(sue, 'eve', 'an arbiter')
    sue.goes('arbiter').finds('.desk-card', 'the desk')
    sue.run('for (const one of document.querySelectorAll(".desk-panel")) one.open = true')
    well(sue, 'the desk', '[data-key="new-link-bob"]')
    sue.click('#entries')
    well(sue, 'the desk’s question', '#arbiter-dialog')
    sue.keys(Keys.ESCAPE)
    by_lines(hall, 'ann', 'resign ' + number)
    well(ann, 'a game that is over', '#again')


# The English texts that the page's language says otherwise, and that are read on the page now.
ENGLISH = '''const [done] = arguments, table = 'words-' + document.documentElement.lang + '.js';
  import(new URL(table, location.href.split('#')[0])).then(({ WORDS }) => {
    const texts = new Set(Object.keys(WORDS).filter((text) => WORDS[text] !== text && /[A-Za-z]{3}/.test(text)));
    const seen = [...document.querySelectorAll('body *')].filter((e) => e.getClientRects().length).flatMap((e) => [
      ...[...e.childNodes].filter((node) => node.nodeType === 3).map((node) => node.data.trim().replace(/\\s+/g, ' ')),
      e.getAttribute('aria-label'), e.getAttribute('title'), e.getAttribute('placeholder')]);
    done([...new Set(seen.filter((text) => texts.has(text)))]); });'''


# The tables of words that the page has loaded.
TABLES = '''return performance.getEntriesByType('resource').map((one) => one.name.split('/').pop())
    .filter((name) => name.startsWith('words-'))'''


def fits(person, language):
    """No word is too long, on any screen."""
    for told, *_ in on_screens(person, 'in ' + language):
        cut = person.run('''return [...document.querySelectorAll('button')].filter((e) => e.getClientRects().length
            && e.scrollWidth > e.clientWidth + 1).map((e) => e.textContent)''')
        person.is_so(cut == [], '%s: no word is cut off: %s' % (told, cut))


def left(person):
    return person.driver.execute_async_script(ENGLISH)


def is_in(language, person, what):
    """All that is shown is in this language, and fits."""
    person.is_so(left(person) == [], '%s: nothing is English in %s: %s' % (what, language, left(person)))
    fits(person, language)


def english_again(*persons):
    for person in persons:
        person.run('localStorage.removeItem("language")')
        person.reload().until(lambda: person.run('return document.documentElement.lang') == 'en', 'English again')


def in_languages(*persons):
    """Each language, in which the page is from its next load on; and English again."""
    for language in ('de', 'es', 'fr', 'it', 'nl', 'pl', 'pt'):
        for person in persons:
            person.run('localStorage.setItem("language", arguments[0])', language)
        yield language
    english_again(*persons)


def in_german(hall):
    """All words in German, by the switch or by what the browser wants, also in what is said; and English again."""
    number, ann, bob, sue = hall.begin(minutes='20')
    ann.click('#settings summary', '.choice:has([name=language][value=de])')
    ann.until(lambda: ann.run('return document.documentElement.lang') == 'de', 'chosen')
    ann.reads('#outcome', 'Du bist am Zug')
    ann.is_so(ann.driver.title.startswith('Du bist am Zug'), 'the tab too')
    ann.run('document.querySelector(\'#board [data-square="e2"]\').focus()')
    square = ann.focused('getAttribute("aria-label")')
    ann.is_so(square == 'e2, weißer Bauer', 'and the squares: %s' % square)
    ann.is_so(left(ann) == [], 'nothing is English at the board: %s' % left(ann))
    ann.click_move('f2f3')
    bob.moved(['f3'], 'a move')
    hall.play(FOOLS[1:2], 1)
    ann.hears('Schwarz: e5', 'what is said')
    ann.goes('').finds('#open-game', 'the table')
    ann.is_so(left(ann) == [], 'nor at the table: %s' % left(ann))
    ann.goes('game/' + number)
    hall.play(FOOLS[2:], 2)
    ann.reads('#outcome', 'Schwarz gewinnt durch Matt', 'Artikel 5.1.1 der FIDE-Regeln')
    ann.is_so(ann.moves()[-1] == 'Dh4#' and left(ann) == [], 'the sheet has the letters of German')
    ann.is_so('Qh4#' in truth(hall, number)[0]['pgn'] and bob.moves()[-1] == 'Qh4#', 'and no other place')
    sue.run('localStorage.setItem("language", "de")')
    sue.takes(hall.lobby.tokens['eve'])
    sue.reload()
    sue.click('#to-arbiter').finds('#arbiter-desk', 'the desk')
    for panel in ('pair-by-hand', 'players-and-links'):
        sue.run('document.getElementById(arguments[0]).open = true', panel)
    sue.finds('[data-key="new-link-bob"]', 'its parts')
    sue.is_so(left(sue) == [], 'nor at the desk: %s' % left(sue))
    for person in (ann, sue):
        fits(person, 'de')
    english_again(ann, sue)


def in_every_language(hall):
    """The words of one language alone are loaded, all is said in them, and they fit on every screen. A move is typed
    with its letters or with the English ones, and asked about where these mean two."""
    _, ann, _, sue = hall.begin(minutes='20', fen=ROOK_AND_KING)
    sue.takes(hall.lobby.tokens['eve'])
    sue.click('#to-arbiter')
    for language in in_languages(ann, sue):
        for person, place in ((ann, '#resign'), (sue, '#arbiter-desk .desk-card')):
            person.reload().finds(place, 'the page in %s' % language)
            tables = person.run(TABLES)
            person.is_so(tables == ['words-%s.js' % language], 'one table is loaded for %s: %s' % (language, tables))
            is_in(language, person, place)
        sue.goes('again').finds('#again-board', 'the board on which a game is looked at again')
        sue.run('document.querySelector("#again-paste").open = true')
        is_in(language, sue, 'looked at again')
        sue.goes('arbiter')
    ann.run('localStorage.setItem("language", "fr")')
    ann.reload().finds('#resign', 'the page in French')
    ann.type('#move-text', 'Rd1' + Keys.ENTER).reads('#note', 'Rd1 peut être un coup du roi')
    ann.is_so(ann.moves() == [], 'nothing was sent')
    ann.type('#move-text', 'Ra5' + Keys.ENTER).moved(['Ta5'], 'the rook alone can go there')
    english_again(ann)


JOINS = 'return [...document.querySelectorAll("[data-key^=join-]")].map((e) => e.dataset.key)'


def the_board_stays(hall):
    """What is told does not move the board of who plays, nor a break. Another game that is offered meanwhile begins once that is
    accepted twice, and at every board one is told of one's own other game, and where it is one's turn there."""
    number, ann, bob, sue = hall.begin(minutes='20')
    place = 'const at = document.querySelector("#board").getBoundingClientRect(); return [at.left, at.top, at.width]'
    stood = [person.run(place) for person in (ann, bob)]
    by_lines(hall, 'eve', 'announce Coffee is ready')
    hall.both.shows('#announced-words', 'The arbiter announces: Coffee is ready', 'an announcement')
    carl = Guest(hall.lobby.port, hall.lobby.tokens['cid'])
    carl.ask('pair cid ann 1200 0')
    ann.reads('#challenges', 'offers you a game')
    ann.is_so([person.run(place) for person in (ann, bob)] == stood, 'each board is where it was')
    well_on_screens(ann, 'news over a game', '#telling')
    for width, height in ((1280, 800), (1024, 768), (900, 700), (768, 1024), (360, 740), (640, 360)):
        ann.screen(width, height, 1, width < 720 or height > width)
        time.sleep(0.3)
        ann.is_so(ann.run(COVERED) == [], '%d x %d: it covers nothing: %s' % (width, height, ann.run(COVERED)))
        line = ann.box('#telling')
        ann.is_so(line['width'] > 100 and line['height'] < 40, '%d x %d: one line: %s' % (width, height, line))
    ann.screen(1280, 800).click('#telling-opens')
    well_on_screens(ann, 'the news, opened', '#news .banner')
    here = ann.driver.current_url
    ann.click('#challenges .strong').reads('#challenges', 'Another game of yours goes on')
    ann.is_so(ann.driver.current_url == here, 'nothing has begun')
    ann.click('#challenges .strong').until(lambda: ann.driver.current_url != here, 'the other game begins')
    ann.reads('#invited', 'Your game %s against' % number, 'goes on')
    second = ann.driver.current_url.rsplit('/', 1)[1]
    ann.click('#telling-opens', '#invited a').until(lambda: ann.driver.current_url == here, 'the way to it')
    ann.reads('#invited', 'Your game %s against' % second, 'goes on').reads('#invited', 'the clocks run')
    carl.ask('move %s 0 e4' % second)
    ann.reads('#invited', 'it is your turn')
    by_lines(hall, 'ann', 'resign ' + second)
    ann.loses('#invited', 'that is told until it has ended')
    by_lines(hall, 'eve', 'announce')
    carl.close()
    hall.lobby.kill()
    hall.both.finds('#lost', 'a break')
    ann.is_so(ann.run(place) == stood[0], 'the board is where it was')
    hall.lobby.start()
    hall.both.loses('#lost', 'which is over', 40)
    ann.is_so(ann.run(place) == stood[0], 'and there it stays')


def offers_end(hall):
    """A game of one's own that waits is taken back: once another begins, after ten minutes, and where one's last page
    is left; where it is loaded anew it is opened again, and it stays where another page is there."""
    ann, bob, _ = hall.sit()
    first, second = hall.set_up(), hall.set_up()
    ann.reads('#outcome', 'It is taken back at', 'when you close this page')
    number = lambda: ann.driver.current_url.rsplit('/', 1)[1]
    ann.reload().until(lambda: number() not in (first, second), 'loaded anew, they are opened again')
    ann.reads('#outcome', 'Waiting for an opponent', 'It is taken back at')
    waiting = lambda: [key.split('-')[1] for key in bob.run(JOINS)]
    waits = lambda number: number in waiting()
    bob.until(lambda: len(waiting()) == 2 and waits(number()), 'both wait')
    second, = [one for one in waiting() if one == number()]
    first, = [one for one in waiting() if one != second]
    bob.click('[data-key="join-%s"]' % second)
    hall.both.finds('#resign', 'the second begins')
    ann.reads('#taken-back', 'Your other game that waited is taken back')
    bob.goes('').until(lambda: not waits(first), 'and the first waits no more')
    by_lines(hall, 'ann', 'resign ' + second)
    third = hall.set_up()
    ann.run('localStorage.setItem("opened", JSON.stringify({ [arguments[0]]: { at: Date.now() - 600000 } }))', third)
    ann.reads('#taken-back', 'Nobody has joined your game in ten minutes').reads('#no-game', 'was taken off the table')
    fourth = hall.set_up()
    ann.driver.switch_to.new_window('tab')
    ann.go(hall.lobby.address + '#' + hall.lobby.tokens['ann'])
    ann.shows('#who-name', hall.lobby.full['ann'], 'a second page')
    ann.finds('#own-list .game-row', 'which is told of the table')
    ann.driver.close()
    ann.driver.switch_to.window(ann.driver.window_handles[0])
    time.sleep(1)
    bob.is_so(waits(fourth), 'one of two pages is left: it waits')
    ann.go('about:blank')
    bob.until(lambda: not waits(fourth), 'the last page is left: it waits no more')


def a_killed_browser(hall):
    """A browser that is killed takes no game back: the table and the game's page say that its player is not connected,
    and nobody can join there until the player is back, in whatever browser."""
    hall.seat_anew('ann', 'bob', 'sue')
    _, bob, sue = hall.sit()
    number = hall.set_up()
    join = '[data-key="join-%s"]' % number
    bob.finds(join, 'it waits')
    hall.people.pop('ann').dies()
    bob.loses(join, 'who was killed is not joined', 40).reads('#open-list', 'not connected')
    bob.goes('game/' + number).reads('#outcome', hall.lobby.full['ann'] + ' is not connected.')
    bob.lacks('#join', 'nor at the game').reads('.player.white .away', 'not connected')
    reads_well(bob, 'a game whose player is away')
    hall.signs_in(sue, 'ann', 'back in another browser')
    bob.finds('#join', 'it can be joined', 40).goes('').finds(join, 'at the table too', 40)
    bob.click(join).finds('#resign', 'it begins')
    sue.finds('#resign', 'before both')


PERFT = """const [fen, depth, done] = arguments; import('/rules.js').then(({ readFen, legalMoves, made }) => {
    const count = (at, left) => (left === 0 ? 1
      : legalMoves(at).reduce((sum, move) => sum + count(made(at, move), left - 1), 0));
    done(count(readFen(fen), depth)); });"""
# Positions, and how many lines of so many moves each has: known from elsewhere.
COUNTED = (('rnbqkbnr/pppppppp/8/8/8/8/PPPPPPPP/RNBQKBNR w KQkq - 0 1', 3, 8902),
           ('r3k2r/p1ppqpb1/bn2pnp1/3PN3/1p2P3/2N2Q1p/PPPBBPPP/R3K2R w KQkq - 0 1', 2, 2039),
           ('8/2p5/3p4/KP5r/1R3p1k/8/4P1P1/8 w - - 0 1', 3, 2812),
           ('r3k2r/Pppp1ppp/1b3nbN/nP6/BBP1P3/q4N2/Pp1P2PP/R2Q1RK1 w kq - 0 1', 3, 9467),
           ('rnbq1k1r/pp1Pbppp/2p5/8/2B5/8/PPP1NnPP/RNBQK2R w KQ - 1 8', 2, 1486))
PASTED = """[Event "A cup"]
[White "Reti"]
[Black "Tartakower"]
[Result "1-0"]

1. e4 c6 2. d4 d5 3. Nc3 dxe4 4. Nxe4 Nf6 {a plan} 5. Qd3 e5 (5... Nbd7 6. Nd6+) 6. dxe5 Qa5+ 7. Bd2 Qxe5
8. O-O-O Nxe4 9. Qd8+ $1 Kxd8 10. Bg5+ Kc7 11. Bd8# 1-0
"""
TREE = '1.f3e5(1…d52.e4dxe4)2.g4Qh4#'


def looked_at_again(hall):
    """A game that is over, a PGN and a FEN on a board on which both sides are moved, by the rules, with variations that
    the browser keeps, and a PGN of it that others read; but no game in which one plays."""
    number, ann, _, sue = hall.begin(minutes='20')
    ann.lacks('#look-again', 'not while one plays')
    ann.goes('again/' + number).reads('#again-note', 'You play in this game')
    ann.goes('game/' + number).reads('#outcome', 'Your turn')
    hall.play(FOOLS)
    ann.click('#look-again').shows('#again-moves', '1.f3e52.g4Qh4#', 'its moves')
    ann.board = '#again-board'
    ann.until(lambda: ann.men().get('h4') == 'black queen', 'it is opened where it stood')
    ann.click('#again-first', '#again-next').until(lambda: ann.men().get('f3') == 'white pawn', 'a move on')
    ann.tap('e7').is_so(ann.lit() == {'e6', 'e5'}, 'the pawn’s two squares')
    fen = 'rnbqkbnr/pppppppp/8/8/8/5P2/PPPPP1PP/RNBQKBNR b KQkq - 0 1'
    ann.until(lambda: 'moves ' + fen in ann.sent('moves '), 'who has signed in is told the moves by the lobby')
    told = by_lines(hall, 'ann', 'moves ' + fen)[0].split(' ')
    ann.is_so(told[:3] == ['ok', 'moves', '-'] and {move[2:] for move in told[3:] if move[:2] == 'e7'} == ann.lit(),
              'and those are marked: %s' % told)
    ann.forget_sent().tap('a4').click_move('d7d5').click_move('e2e4')
    ann.drag_move('d5e4').shows('#again-moves', TREE, 'a variation')
    ann.is_so(ann.sent('move ') == [], 'no move is sent')
    ann.reload().shows('#again-moves', TREE, 'which the browser keeps')
    ann.click('#again-copy-pgn').reads('#again-note', 'PGN is copied')
    ann.is_so('1. f3 e5 (1... d5 2. e4 dxe4) 2. g4 Qh4# 0-1' in ann.clipboard(), 'a PGN: ' + ann.clipboard())
    program = shutil.which('pgn-extract') or '/usr/games/pgn-extract'
    read = subprocess.run([program, '-s', '-Wlalg'], input=ann.clipboard(), capture_output=True, text=True)
    ann.is_so('f2f3 e7e5 (' in read.stdout and read.stderr == '', 'that others read: %s' % read)
    for what, width, height, _ in on_screens(ann, 'again'):
        box = ann.box('#again-board .board')
        ann.is_so(box['top'] >= 0 and box['bottom'] <= height, '%s: the board is in sight: %s' % (what, box))
        ann.is_so(box['width'] >= 0.4 * min(width, height), '%s: and large: %s' % (what, box))
    ann.click('#again-next', '#again-next', '#again-cut')
    ann.shows('#again-moves', '1.f3d52.e4dxe4', 'cut')
    ann.click('#again-anew').shows('#again-moves', '1.f3e52.g4Qh4#', 'as it was told')
    paste(sue.goes('again'), PASTED.replace('Nxe4 Nf6', 'Nxe4 Ne4'))
    sue.reads('#again-note', 'Ne4 cannot be played there').is_so('4.Nxe4' in sue.text('#again-moves'), 'up to there')
    sue.is_so(sue.sent('moves ') == [], 'who has not goes by the page’s own rules')
    paste(sue, PASTED)
    sue.until(lambda: '(5…Nbd76.Nd6+)' in sue.text('#again-moves'), 'a PGN with a variation')
    sue.reads('#again-who', 'Reti – Tartakower').keys(Keys.END)
    sue.shows('#again-moves [aria-current]', 'Bd8#', 'the end')
    paste(sue, 'r3k2r/1P6/8/8/8/8/8/R3K2R w KQkq - 0 1')
    sue.board = '#again-board'
    sue.until(lambda: len(sue.men()) == 7, 'a FEN').tap('e1', 'h1')
    sue.shows('#again-moves', '1.O-O', 'castles').keys(Keys.ARROW_LEFT).tap('b7', 'b8').click('[aria-label=knight]')
    sue.shows('#again-moves', '1.O-O(1.b8=N)', 'a pawn becomes a knight')
    paste(sue, 'a word')
    sue.reads('#again-note', 'neither a FEN nor a PGN')
    for fen, depth, wanted in COUNTED:
        found = sue.driver.execute_async_script(PERFT, fen, depth)
        sue.is_so(found == wanted, '%s lines of %d moves from %s' % (found, depth, fen))
    ann.board = sue.board = '#board'


def paste(person, text):
    if not person.run('return document.querySelector("#again-paste").open'):
        person.click('#again-paste summary')
    person.run('document.querySelector("#again-text").value = arguments[0]', text)
    person.click('#again-form button')


class Evening:
    """`./chess-club` with these words, in a folder laid out for it, until it is left; what it tells."""

    def __init__(self, top, *words):
        self.top, self.words = top, words

    def __enter__(self):
        self.errors = tempfile.TemporaryFile('w+', dir=self.top)
        self.process = subprocess.Popen(['./chess-club', *self.words], cwd=self.top, stdout=subprocess.PIPE,
                                        stderr=self.errors, text=True)
        return self

    def told(self):
        self.errors.seek(0)
        return self.errors.read()

    def __exit__(self, *_):
        self.process.terminate()
        self.process.wait()
        self.errors.close()


def tried(top):
    """From now on the folder is as a clone where the programs are compiled and nothing is proved."""
    os.remove(os.path.join(top, 'tools', 'chess_club'))
    for name in ('chess_server', 'chess_club'):
        place = os.path.join(top, 'crates', name, 'out', 'unproved')
        os.makedirs(place)
        os.symlink(path_of(name), os.path.join(place, name))
    builds = os.path.join(top, 'tools', 'run-program')
    put(builds, '#!/bin/sh\n[ "$1" = --unproved ] || exit 9\n'
        '[ "$2" = --build ] && exit\necho NOT PROVED >&2\nprogram=$2; shift 2\n'
        'exec "%s/crates/$program/out/unproved/$program" "$@"\n' % top)
    os.chmod(builds, 0o755)


def the_first_minutes(hall):
    """`./chess-club evening --lan`: the page and its links are for the devices of the network, and the desk says that
    nothing is encrypted; a port that is taken ends it. With `try` it says that nothing is proved, and what to do."""
    top, sue, free = laid_out(tempfile.mkdtemp(dir=hall.folder)), hall.sue, Door(None)
    port = str(free.port)
    free.close()
    club = lambda *words: subprocess.run(['./chess-club', *words], cwd=top, capture_output=True, text=True)
    player = lambda: club('player', 'ann', '--full-name', 'Ann Lee', '--players', 'friday/club.players')
    with Evening(top, 'evening', 'friday', '--port', port, '--lan') as evening:
        address = evening.process.stdout.readline().strip()
        sue.is_so(re.fullmatch(r'http://(?!127\.|0\.)[\d.]+:%s/' % port, address), 'one that others reach: ' + address)
        link = player().stdout.strip()
        sue.is_so(link.startswith(address + '#'), 'so are links')
        sue.go('about:blank').go(link).shows('#who-name', 'Ann Lee', 'a player’s')
        desk = content(os.path.join(top, 'friday', 'arbiter.link')).strip()
        sue.go('about:blank').go(desk).click('#other-yes')
        sue.click('#to-arbiter').reads('#unencrypted', 'This page is not encrypted')
        taken = club('evening', 'saturday', '--port', port, '--lan')
        says = taken.stderr.strip().splitlines()[-1]
        sue.is_so(taken.returncode == 1 and '--port names another' in says, 'a port that is taken: ' + says)
    alone = player()
    sue.is_so('http://127.0.0.1:8080/#' in alone.stdout and 'no page is at' in alone.stderr,
              'where no evening runs, a link is told to lead nowhere: ' + alone.stderr)
    tried(top)
    with Evening(top, 'try', 'evening', 'friday', '--port', port) as evening:
        sue.until(lambda: 'Control-C ends' in evening.told(), 'what to do next')
        sue.is_so(evening.told().count('NOT PROVED') == 1 and 'tab of its own' not in evening.told(),
                  'it says once that nothing is proved, and makes no players where there are some')
        again = content(os.path.join(top, 'friday', 'arbiter.link')).strip()
        sue.is_so(again == 'http://127.0.0.1:%s/#%s' % (port, desk.split('#')[1]),
                  'the arbiter’s link has the address of this start: ' + again)
    with Evening(top, 'try', 'evening', 'sunday', '--port', port) as evening:
        sue.until(lambda: 'Control-C ends' in evening.told(), 'what to do next')
        links = re.findall(r'(\w+ \w+): +(http\S+)', evening.told())
        sue.is_so([name for name, _ in links] == ['Ann Lee', 'Bob Stone', 'Cid Okonkwo'], 'three players: %s' % links)
        for name, link in links:
            sue.go(link).run('sessionStorage.clear()')
            sue.go('about:blank').go(link).shows('#who-name', name, 'who opens a link is its player')
        said = club('player', 'dee', '--full-name', 'Dee Moss', '--players', 'sunday/club.players')
        sue.is_so('NOT PROVED' in said.stderr and said.stdout.startswith('http://127.0.0.1:%s/#' % port),
                  'a word beside it is tried too: ' + said.stderr)
        plain = subprocess.run(['../chess-club', 'player'], cwd=os.path.join(top, 'sunday'), capture_output=True)
        sue.is_so(plain.returncode == 9, 'one that names no file is not, whatever stands in the current folder')


EVENING = (no_dead_buttons, handy_moves, full_names, planned_moves, asked_first, heard_tones, own_marks, taken_men,
           boards_and_men, told_elsewhere, slow_answers, foreign_links, room_for_all, a_phone_on_its_side, read_by_all,
           in_german, in_every_language, the_board_stays, offers_end, a_killed_browser, looked_at_again, the_first_minutes)
