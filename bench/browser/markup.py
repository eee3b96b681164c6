"""Scenes of bench/browser/page: what somebody has typed is text wherever a page shows it, and no element is made of
it."""

import json

from evening import paste
from finished import NOBODY, kept_pgn, keeps
from lib.lobby import put_players
from lib.program import content, put
from page_lines import by_lines
from round import round_told, serves
from watching import watching

TYPED = '"><img src=x onerror=hurt()>\'</script><a class=typed href="javascript:hurt()">%s</a>&lt;'
# What a page has of elements that it would not make itself; and whether something of them has run.
MADE = '''const own = (e) => [...e.attributes].some((one) => one.name.startsWith('on')
        || /^ *javascript:/i.test(one.value));
    return [...document.querySelectorAll('*')]
        .filter((e) => own(e) || e.matches('.typed, iframe, object, embed')).map((e) => e.outerHTML)
        .concat(typeof window.hurt === 'string' ? [window.hurt] : [])'''
READ = '''return document.body.textContent.includes(arguments[0])
    || [...document.querySelectorAll('option, [title], [aria-label], input, textarea')].some((e) =>
        [e.value, e.title, e.getAttribute('aria-label')].some((text) => text && text.includes(arguments[0])))'''


def typed(word):
    return TYPED % word


def reads_as_typed(person, *words, where):
    """The page shows these texts as they were typed."""
    for word in words:
        person.until(lambda: person.run(READ, typed(word)), '%s shows what was typed for %s' % (where, word), 20)
    person.is_so(person.run(MADE) == [], 'and makes nothing of it: %s' % person.run(MADE))


def knows(hall, rows):
    """The lobby has these players."""
    put_players(hall.lobby.club, rows)
    hall.lobby.full.update((name, full) for name, _, _, full in rows)
    told = ' '.join(rows[1][i] for i in (0, 1, 3))
    hall.sue.until(lambda: told in by_lines(hall, 'ann', 'players')[0], 'the lobby knows the players')


def typed_by_players(hall):
    """Full names, reasons and announcements, in each view of who has a link and of the desk."""
    club, full = content(hall.lobby.club), dict(hall.lobby.full)
    hall.sit('sue')
    try:
        knows(hall, [(name, 'arbiter' if name == 'eve' else 'player', hall.lobby.tokens[name], typed(name))
                     for name in full])
        number, ann, bob, sue = hall.begin(minutes='20')
        hall.play(['e2e4'])
        reads_as_typed(bob, 'ann', 'bob', where='the board')
        ann.goes('hall/' + number)
        reads_as_typed(ann, 'ann', 'bob', where='the screen of a game')
        ann.goes('hall')
        reads_as_typed(ann, 'ann', 'bob', where='the hall')
        ann.goes('')
        reads_as_typed(ann, 'ann', 'cid', where='the table')
        for line in ('announce ' + typed('lunch'), 'stop clocks ' + typed('why')):
            by_lines(hall, 'eve', line)
        reads_as_typed(bob, 'lunch', 'why', where='the board')
        by_lines(hall, 'eve', 'start clocks', 'announce')
        put(hall.lobby.folder + '/round1.csv', 'board,white,black,times,start\n1,ann,bob,20,\n')
        by_lines(hall, 'eve', 'decide 1 1 1-0 6.9 ' + typed('reason'))
        reads_as_typed(bob, 'reason', where='what was decided')
        at_the_desk(hall, number)
        hall.both.is_quiet()
    finally:
        by_lines(hall, 'eve', 'start clocks', 'announce')
        put(hall.lobby.club, club)
        hall.lobby.full.update(full)
        hall.sue.until(lambda: 'ann player ' + full['ann'] in by_lines(hall, 'ann', 'players')[0], 'all as before')


def at_the_desk(hall, number):
    """The same at the desk: boards, pairings, the round that is looked through, links and their sheet."""
    sue = hall.sue
    hall.signs_in(sue, 'eve', 'an arbiter')
    sue.click('#to-arbiter').finds('#arbiter-desk', 'the desk')
    sue.run('document.querySelectorAll("#arbiter-desk details").forEach((one) => { one.open = true; })')
    reads_as_typed(sue, 'ann', 'bob', 'cid', 'dee', where='the desk')
    sue.click('.desk-card:has(a[href="#/game/%s"]) [data-key^=decide-]' % number)
    reads_as_typed(sue, 'ann', 'bob', where='the decision')
    sue.click('#decide-leave').is_quiet()


def typed_in_files(hall):
    """Tags of kept games, the round's names, and a PGN or a FEN that is pasted."""
    sue = hall.sit('sue')[2]
    rows = [(NOBODY + 1, typed('White'), typed('Black'), '2026.11.27', '1-0', '5.1.2',
             '1. e4 {%s} e5 1-0' % typed('move'))]
    keeps(hall, rows)
    sue.goes('games')
    reads_as_typed(sue, 'White', 'Black', where='the games that were kept')
    sue.run('location.hash = "#/player/" + encodeURIComponent(arguments[0])', typed('White'))
    reads_as_typed(sue, 'White', where='a player’s games')
    sue.goes('game/%d' % (NOBODY + 1))
    reads_as_typed(sue, 'White', 'Black', where='a game that was kept')
    told = round_told(NOBODY + 1)
    told['event'] = typed('event')
    for player in told['players']:
        player.update(full=typed(player['name']), values=[typed('value')] * 4)
    serves(hall, json.dumps(told))
    sue.goes('').goes('round')
    reads_as_typed(sue, 'event', 'ann', 'value', where='the round')
    sue.goes('again').finds('#again-board', 'the board')
    paste(sue, '[White "%s"]\n[FEN "%s"]\n\n1. e4 *' % (typed('a'), typed('fen').replace('"', '')))
    sue.reads('#again-note', 'That is no FEN').is_so(sue.run(MADE) == [], 'nothing is made of a FEN')
    paste(sue, kept_pgn(1, typed('White'), typed('Black'), '2026.11.27', '1-0', '5.1.2',
                        '1. e4 {%s} e5 (1... c5 ; %s\n) 1-0' % (typed('comment'), typed('line'))))
    reads_as_typed(sue, 'White', 'Black', 'comment', 'line', where='a PGN that was pasted')
    for address in ('again/<img src=x class=typed>', 'player/%3Cimg%20src=x%20class=typed%3E', 'game/1<b class=typed>'):
        sue.goes(address)
    sue.is_so(sue.run(MADE) == [], 'nor of an address')
    sue.run('localStorage.removeItem("again")')
    sue.is_quiet()
    keeps(hall, ())
    serves(hall, '')


@watching
def typed_for_spectators(sue, shown):
    """What spectators' files tell of names, titles and ratings, of clocks that stand still and of announcements."""
    shown.has(7, 3, names=[typed('ann'), typed('bob')], titles=[typed('title'), ''], ratings=[typed('rating'), ''])
    shown.says(stopped=typed('why'), announced=typed('lunch'))
    sue.go(shown.address)
    reads_as_typed(sue, 'title', 'rating', 'why', 'lunch', where='the table')
    for path in ('', '#/game/7', '#/hall', '#/hall/7', 'board/7', 'boards'):
        sue.go('about:blank').go(shown.address + path)
        reads_as_typed(sue, 'ann', 'bob', where='/' + path)
    sue.go('about:blank').go(shown.address + '#/game/7')
    reads_as_typed(sue, 'why', 'lunch', where='a game that is watched')


MARKUP = (typed_by_players, typed_in_files, typed_for_spectators)
